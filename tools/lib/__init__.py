"""What the commands of tools/ are made of: each module says in its first line what it is for."""
