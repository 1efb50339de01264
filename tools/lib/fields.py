"""Bytes that are read field by field. Numbers are big-endian, and no gap is between fields."""


class Cut(Exception):
    """The bytes end within a field."""


class Fields:
    """The fields of bytes, of which so many are behind: `place` is the first byte of the next one."""

    def __init__(self, data):
        self.data, self.place = data, 0

    def take(self, size):
        """The bytes of the next field, which has this size."""
        if len(self.data) - self.place < size:
            raise Cut
        self.place += size
        return self.data[self.place - size:self.place]

    def number(self, size):
        return int.from_bytes(self.take(size), 'big')
