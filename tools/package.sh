#!/usr/bin/env bash
# Makes a Debian package of a proved osekfit, its scripts, its pages and examples, and the log of the gate that passed, with the sums of all of it.
# GATE_LOG is what .ci/run printed; it has to end with a line that says that nothing failed. The same inputs give the same bytes.
# usage: tools/package.sh PROGRAM GATE_LOG FOLDER      writes FOLDER/osekfit_VERSION_ARCHITECTURE.deb
set -euo pipefail
umask 022
root=$(cd "$(dirname "$0")/.." && pwd)

fail() { echo "package.sh: $1" >&2; exit 2; }

[ $# -eq 3 ] || fail 'usage: tools/package.sh PROGRAM GATE_LOG FOLDER'
program=$1 log=$2 folder=$3
[ -f "$program" ] || fail "$program: no such file"
[ -x "$program" ] || fail "$program: no program"
[ -f "$log" ] || fail "$log: no such file"
command -v dpkg-deb >/dev/null || fail 'dpkg-deb is wanted, and not on the PATH'
tail -n 1 "$log" | grep -Eqx '[0-9]+ passed, 0 failed' || fail "$log: its last line is not that of a gate that passed"

version=$(cat "$root/VERSION")
commit=$(git -C "$root" describe --always --dirty 2>/dev/null || echo unknown)
export SOURCE_DATE_EPOCH=${SOURCE_DATE_EPOCH:-$(git -C "$root" log -1 --format=%ct 2>/dev/null || echo 0)}
architecture=$(dpkg --print-architecture)
tree=$(mktemp -d)
chmod 755 "$tree"
trap 'rm -rf "$tree"' EXIT

share=$tree/usr/share/osekfit doc=$tree/usr/share/doc/osekfit
mkdir -p "$tree/DEBIAN" "$tree/usr/bin" "$share" "$doc" "$tree/usr/share/man/man1" "$tree/usr/share/bash-completion/completions" \
  "$tree/usr/share/zsh/vendor-completions"

install -m 755 "$program" "$tree/usr/bin/osekfit"
printf '#!/bin/sh\nPYTHONDONTWRITEBYTECODE=1 exec python3 /usr/share/osekfit/tools/osekfit.py "$@"\n' > "$tree/usr/bin/osekfit-tools"
chmod 755 "$tree/usr/bin/osekfit-tools"

cp -R "$root/README.md" "$root/CHANGES.md" "$root/VERSION" "$root/docs" "$root/examples" "$root/tools" "$share"
rm -rf "$share/tools/tests"
find "$share" \( -name __pycache__ -o -name out \) -type d -prune -exec rm -rf {} +
chmod -R u+rwX,go+rX,go-w "$share"
echo "$commit" > "$share/COMMIT"

front() { python3 -B "$share/tools/osekfit.py" "$@"; }
front --man | gzip -9n > "$tree/usr/share/man/man1/osekfit.1.gz"
ln -s osekfit.1.gz "$tree/usr/share/man/man1/osekfit-tools.1.gz"
front --completion bash > "$tree/usr/share/bash-completion/completions/osekfit-tools"
front --completion zsh > "$tree/usr/share/zsh/vendor-completions/_osekfit-tools"
cp "$log" "$doc/gate.log"
chmod 644 "$doc/gate.log"
(cd "$tree" && find usr -type f ! -name SHA256SUMS | LC_ALL=C sort | xargs -d '\n' sha256sum) > "$tree/SHA256SUMS"
mv "$tree/SHA256SUMS" "$doc/SHA256SUMS"

cat > "$tree/DEBIAN/control" <<CONTROL
Package: osekfit
Version: $version
Architecture: $architecture
Maintainer: $(git -C "$root" log -1 --format='%an <%ae>' 2>/dev/null || echo 'osekfit <osekfit@localhost>')
Section: devel
Priority: optional
Depends: python3 (>= 3.8)
Suggests: clang, graphviz
Installed-Size: $(du -sk --apparent-size "$tree/usr" | cut -f 1)
Description: fits an OSEK kernel to an application, and says what it can do
 It reads an application as OIL (ISO 17356-6) with a model of its task code,
 and says at each call which dispatches can follow and what can't happen. That
 its answers are those of the kernel as its documents define it is proved:
 /usr/share/doc/osekfit has the log of the gate and the sums of all files.
 The scripts, which osekfit-tools runs, stand outside the proof.
CONTROL
(cd "$tree" && find usr -type f | LC_ALL=C sort | xargs -d '\n' md5sum) > "$tree/DEBIAN/md5sums"

find "$tree" -exec touch --no-dereference --date="@$SOURCE_DATE_EPOCH" {} +
mkdir -p "$folder"
dpkg-deb --root-owner-group --build -Zxz "$tree" "$folder/osekfit_${version}_$architecture.deb"
