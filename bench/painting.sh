#!/usr/bin/env bash
# The most memory that `replay` takes, in KB, and its seconds, on strokes and images among fills. With
# the path of a program it measures that, and else bin/drawpile.
. "$(dirname "$0")/common.sh"
make_frames <<'PY'
import random
MAX = 4096
LAYER = 0x101
start = size(MAX) + create(LAYER, 0, 0)
some = random.Random(61)
def small(n): return fill(LAYER, some.randrange(MAX - 16), some.randrange(MAX - 16), 16, 0x80000000 + n * 977)
def dabs(count):
    return b''.join(struct.pack('>bbBB', some.randrange(-12, 13), some.randrange(-12, 13),
        some.randrange(10, 50), some.randrange(60, 256)) for _ in range(count))
def stroke(n, count):
    head = struct.pack('>HiiBBBB', LAYER, some.randrange(MAX), some.randrange(MAX), n % 256, 30, 60, 1)
    return frame(149 + n % 2, head + dabs(count))
def image(n, side):
    head = struct.pack('>HBIIII', LAYER, 1, some.randrange(MAX), some.randrange(MAX), side, side)
    return frame(136, head + struct.pack('>I', 0x80000000 + n * 7919) * (side * side))
def put(name, parts):
    with open(sys.argv[1] + '/' + name, 'wb') as out:
        out.write(b''.join(parts))
put('strokes-and-fills', [start] + [part(n) for n in range(2000) for part in (lambda n: stroke(n, 20), small)])
put('images-and-fills', [start] + [part(n) for n in range(500) for part in (lambda n: image(n, 64), small)])
PY
program=${1:-$top/bin/drawpile}
"$program" replay </dev/null >/dev/null
for name in strokes-and-fills images-and-fills; do
  /usr/bin/time -f "$name: %M KB, %U s" "$program" replay <"$work/$name" >/dev/null
done
