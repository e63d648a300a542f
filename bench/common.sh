# What the timings share, to be sourced: a folder for the inputs, which goes at the end.
set -eu
top=$(cd "$(dirname "$0")/.." && pwd)
work=$(mktemp -d)
trap 'rm -rf "$work"' EXIT

# Runs the Python on standard input, which writes inputs to sys.argv[1], with these functions.
make_frames() {
  python3 - "$work" <<PY
import struct, sys
def frame(kind, payload): return struct.pack('>HBB', len(payload), kind, 1) + payload
def size(side): return frame(129, struct.pack('>iiii', 0, side, side, 0))
def create(id, parent, group): return frame(130, struct.pack('>HHB', id, parent, group))
def attr(id, opacity, mode): return frame(131, struct.pack('>HBBB', id, opacity, mode, 0))
def fill(id, x, y, side, color):
    return frame(137, struct.pack('>HBIIIII', id, 1, x, y, side, side, color))
$(cat)
PY
}

# Times a command of the program on each of these inputs, after a first run that builds it.
time_all() {
  local command=$1 input
  shift
  "$top/bin/drawpile" replay </dev/null >/dev/null
  for input in "$@"; do
    echo "$input: $(stat -c %s "$work/$input") bytes in"
    time "$top/bin/drawpile" "$command" <"$work/$input" >/dev/null
  done
}
