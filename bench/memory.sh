#!/usr/bin/env bash
# The most memory that `replay` takes, in KB, and its seconds, on inputs of 50 bytes to 1 MB. With the
# path of a program it measures that, and else bin/drawpile.
. "$(dirname "$0")/common.sh"
make_frames <<'PY'
import random
MAX = 4096
LAYER = 0x101
start = size(MAX) + create(LAYER, 0, 0)
def move(sx, sy, w, h, tx, ty): return frame(152, struct.pack('>HIIIIii', LAYER, sx, sy, w, h, tx, ty))
def solid(color, col, row, repeat):
    return frame(146, struct.pack('>HHHHBHHHH', LAYER, col, row, repeat, 0, *color))
def dab(x, y): return frame(149, struct.pack('>HiiBBBBbbBB', LAYER, x, y, 200, 30, 60, 1, 0, 0, 255, 200))
def colors(count): return [(n * 7, n * 5, n * 3, 32768) for n in range(1, count + 1)]
def put(name, parts):
    with open(sys.argv[1] + '/' + name, 'wb') as out:
        out.write(b''.join(parts))
whole = move(0, 0, MAX, MAX, 1, 1)
tiles = [(n % 64, n // 64) for n in range(4096)]
some = random.Random(7)
put('move-blank', [start, whole])
put('move-a-pixel', [start, fill(LAYER, 100, 100, 1, 0xff0000ff), whole])
put('tile-20-colors', [start] + [solid(c, 0, 0, 65535) for c in colors(20)])
put('reset-16-colors', [start] + [solid(colors(16)[n % 16], *at, 0) for n, at in enumerate(tiles)])
put('reset-4096-colors', [start] + [solid(c, *at, 0) for c, at in zip(colors(4096), tiles)])
put('dab-255', [start, dab(1024, 1024)])
put('fills-anywhere', [start] + [fill(LAYER, some.randrange(MAX - 16), some.randrange(MAX - 16), 16,
    0xff000000 + n) for n in range(40000)])
put('resize-aligned', [start, fill(LAYER, 0, 0, MAX - 64, 0xff00ff00), fill(LAYER, 5, 5, 4000, 0x80ff0000),
    frame(129, struct.pack('>iiii', 64, -64, -64, 64))])
PY
rows="move-blank move-a-pixel tile-20-colors reset-16-colors reset-4096-colors dab-255"
rows="$rows fills-anywhere resize-aligned"
program=${1:-$top/bin/drawpile}
"$program" replay </dev/null >/dev/null
for name in $rows; do
  /usr/bin/time -f "$name: %M KB, %U s" "$program" replay <"$work/$name" >/dev/null
done
