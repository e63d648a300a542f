#!/usr/bin/env bash
# Times `play` on a recording of 100 MB of strokes, of today's profile and of the first one, beside
# `replay` on the same frames.
. "$(dirname "$0")/common.sh"
make_frames <<'PY'
def header(name):
    text = b'{"profile":"' + name + b'"}'
    return b'DPREC\0' + struct.pack('>H', len(text)) + text
layer, point = create(0x101, 0, 0), frame(128, b'')
strokes = b''.join(point + fill(0x101, n % 500, n * 7 % 500, 8, 0xff000000 + n) for n in range(10000))
for name, head in ('frames', b''), ('recording', header(b'dp-int-2')), ('old', header(b'dp-int-1')):
    with open(sys.argv[1] + '/' + name, 'wb') as out:
        out.write(head + size(512) + layer)
        for n in range(100000000 // len(strokes) + 1):
            out.write(strokes)
PY
time_all replay frames
time_all play recording old
