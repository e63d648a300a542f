#!/usr/bin/env bash
# Two painters beside 64 links that are silent, bad, cut, reset, slow, deaf or that only ping, over
# real sockets: bench/bad_links.py. It fails if one isn't served, and if the pictures of what
# both were sent differ from each other, or from that of a client that joins at the end.
# DRAWPILE is the program, else bin/drawpile; PORT another port than 7747; PAINT_SECONDS how long
# they paint.
set -eu
cd "$(dirname "$0")/.."
port=${PORT:-7747}
drawpile=${DRAWPILE:-bin/drawpile}
work=$(mktemp -d)
"$drawpile" replay <examples/red-pixel.frames >/dev/null # builds it on first use
"$drawpile" serve "127.0.0.1:$port" --workers 64 &
server=$!
trap 'kill "$server" 2>/dev/null || true; rm -rf "$work"' EXIT
sleep 1
timeout 120 bench/bad_links.py "$port" "$work" "${PAINT_SECONDS:-5}"
for name in ann bob; do "$drawpile" play <"$work/$name.rec" >"$work/$name.ppm"; done
cmp "$work/ann.ppm" "$work/bob.ppm"
# One who joins now takes all that was placed before, which bob, who left last, was sent.
entries=$(python3 - "$work/bob.rec" <<'PY'
import struct, sys
data, at, count = open(sys.argv[1], 'rb').read(), 30, 0
while at < len(data):
    at += 4 + struct.unpack('>H', data[at:at + 2])[0]
    count += 1
print(count)
PY
)
printf 'take %s\nconf\n' "$entries" | timeout 60 "$drawpile" join "127.0.0.1:$port" eve >"$work/eve"
python3 - "$work" <<'PY'
import sys
work = sys.argv[1]
text = open(f'{work}/eve').read()
eve = [int(word) for word in text[text.index('P3\n') + 3:].split()]
data = open(f'{work}/ann.ppm', 'rb').read().split(b'\n', 3)
sides = [int(word) for word in data[1].split()]
assert eve[:2] == sides and eve[3:] == list(data[3]), 'eve has another picture'
PY
kill -0 "$server"
echo "the painters' pictures are equal, and a client that joined then has the same"
