#!/usr/bin/env bash
# Shows the two lines of trace of examples/first by a quick build, which isn't proved; then builds the proved program, several
# crates at a time, shows the same lines by `build` and `replay`, certifies the image, watches the run's record and tells what can't happen, and ends
# with what was built of what, and the program's path.
# ./first.sh --quick stops after the quick build; with four further words it traces files of one's own.
set -euo pipefail
here=$(cd "$(dirname "$0")" && pwd)

usage() { echo 'usage: ./first.sh [--quick [OIL CODE MODE EVENTS]]' >&2; exit 2; }

fail() { echo "first.sh: $1" >&2; exit 1; }

quick= files=("$here/examples/first/first.oil" "$here/examples/first/first.code" "$here/examples/first/first.events") mode=OSDEFAULTAPPMODE
case $#:${1-} in
  0:) ;;
  1:--quick) quick=yes ;;
  5:--quick) quick=yes mode=$4 files=("$2" "$3" "$5") ;;
  *) usage ;;
esac
command -v rt >/dev/null || fail 'rt, the command of the Rattle kit, is not on the PATH'
names=()
for file in "${files[@]}"; do
  [ -f "$file" ] || fail "$file: no such file"
  names+=("$(basename "$file")")
done
[ "$(printf '%s\n' "${names[@]}" | sort -u | wc -l)" = 3 ] || fail 'the three files have to have different names'

scratch=$(mktemp -d)
log=$scratch/log
building=

end() {
  [ -z "$building" ] || kill "$building" 2>/dev/null || true
  rm -rf "$scratch"
}
trap end EXIT

stop() {
  tail -n 20 "$log" >&2
  fail "$1"
}

# A dot each five seconds while a command runs; its status.
dotted() {
  "$@" &
  building=$!
  local at=0 status=0
  while kill -0 "$building" 2>/dev/null; do
    sleep 0.5
    at=$((at + 1))
    [ $((at % 10)) -ne 0 ] || printf . >&2
  done
  [ $at -lt 10 ] || echo >&2
  wait "$building" || status=$?
  building=
  return $status
}

# `rt try` runs the program in a folder of its own, over copies of the files that --data names, and proves nothing.
quick_trace() {
  local data=() k
  for k in 0 1 2; do data+=(--data "${names[k]}=$(realpath "${files[k]}")"); done
  cd "$here/crates/osekfit"
  exec rt try "${data[@]}" -- trace "${names[0]}" "${names[1]}" "$mode" "${names[2]}" >"$scratch/trace" 2>"$log" </dev/null
}

echo 'A quick build of the program, which is not proved: one to two minutes on a quiet machine.'
if [ -z "$quick" ]; then
  echo "Then the proved program: $("$here/tools/prove.py" --plan), less what an earlier build kept."
  echo 'It may be interrupted at any time: what is proved by then is kept, and the next run goes on behind it.'
fi
echo "The trace of ${names[0]} and ${names[1]}, by the quick build:"
status=0
dotted quick_trace || status=$?
cat "$scratch/trace"
if [ $status -ne 0 ]; then
  # The program's own refusal is all that it writes on standard error; what else stands there is rt's.
  refusal=$(grep -E -m 1 '^(.+:[0-9]+: [LSOCE][0-9]+|.+: no such mode|usage|.+: read|memory)$' "$log" || true)
  [ -n "$refusal" ] || stop 'the quick build failed'
  echo "$refusal" >&2
  exit $status
fi
[ -z "$quick" ] || exit 0

kit=$(rt version)
wanted=$(grep -o -m 1 'logic [0-9a-f]\{16\}' "$here/README.md")
case $kit in
  *"$wanted"*) ;;
  *) echo "first.sh: the kit is $kit, where README has $wanted: another logic decides what is proved" >&2 ;;
esac
echo 'The proved program, a line a crate as each is done, osekfit itself last:'
"$here/tools/prove.py" || exit 1
program=$here/crates/osekfit/out/osekfit
[ -x "$program" ] || fail 'osekfit was proved, and the program is not there'

echo 'The image of examples/first, built and replayed by it:'
"$program" build "${files[0]}" "${files[1]}" "$scratch/image"
"$program" replay "$scratch/image" "$mode" "${files[2]}"
echo 'Whether the table that certifies this image does so:'
"$program" certify "${files[0]}" "${files[1]}" "$scratch/image" "$scratch/table"
"$program" check "$scratch/image" "$scratch/table"
echo 'Whether each point of its record may follow the one before:'
"$program" record "$scratch/image" "$mode" "${files[2]}" >"$scratch/record"
"$program" watch "${files[0]}" "${files[1]}" "$scratch/record"
echo "What can't happen in it:"
"$program" report "${files[0]}" "${files[1]}"
echo "version $(cat "$here/VERSION"), commit $(git -C "$here" describe --always --dirty 2>/dev/null || echo unknown), $kit"
echo "SHA-256 $(sha256sum "$program" | cut -d ' ' -f 1)"
echo "The program is $program"
