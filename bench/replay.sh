#!/usr/bin/env bash
# Times `replay` on many small strokes with undos and redos, on one fill of the greatest canvas, and
# on 1 GiB of layers with long titles, the most that counts (1 GiB of disk, 1.4 GB of memory).
. "$(dirname "$0")/common.sh"
make_frames <<'PY'
layer, point = create(0x101, 0, 0), frame(128, b'')
undo, redo = frame(255, b'\0\0'), frame(255, b'\0\1')
with open(sys.argv[1] + '/strokes', 'wb') as out:
    out.write(size(512) + layer)
    for n in range(100000):
        out.write(point + fill(0x101, n % 500, n * 7 % 500, 8, 0xff000000 + n))
        out.write((undo if n % 5 == 0 else b'') + (redo if n % 10 == 0 else b''))
with open(sys.argv[1] + '/canvas', 'wb') as out:
    out.write(size(4096) + layer + fill(0x101, 0, 0, 4096, 0x80ff0000))
with open(sys.argv[1] + '/limit', 'wb') as out:
    layers = frame(130, b'\1\1\0\0\0' + b'a' * 247) * 65536
    for n in range(64):
        out.write(layers)
PY
time_all replay strokes canvas limit
