#!/usr/bin/env bash
# Times `replay` if the picture takes most of it: 200 layers on 512 by 512, all of them half opaque
# and every fourth in groups nested three deep, and one opaque layer on 4096 by 4096. Half of the
# first is the memory of 200 plain layers. Figures of an earlier day: bench/RESULTS.md.
. "$(dirname "$0")/common.sh"
make_frames <<'PY'
with open(sys.argv[1] + '/layers', 'wb') as out:
    out.write(size(512) + create(0x201, 0, 1) + create(0x202, 0x201, 1) + create(0x203, 0x202, 1))
    for n in range(200):
        id = 0x301 + n
        out.write(create(id, 0x203 if n % 4 == 0 else 0, 0) + attr(id, 128, (1, 2, 9, 10)[n // 4 % 4]))
        out.write(fill(id, n % 64, n % 32, 448, 0xff000000 + n * 65793))
with open(sys.argv[1] + '/canvas', 'wb') as out:
    out.write(size(4096) + create(0x101, 0, 0) + fill(0x101, 0, 0, 4096, 0xffff0000))
PY
time_all replay layers canvas
