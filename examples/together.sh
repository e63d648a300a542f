#!/usr/bin/env bash
# A server and two clients that paint together over the loopback. It prints the picture that both
# have, and fails if theirs differ. PORT chooses another port than 7707.
set -eu
cd "$(dirname "$0")/.."
addr="127.0.0.1:${PORT:-7707}"
kept="$(mktemp -d)"
trap 'rm -rf "$kept"' EXIT
drawpile=bin/drawpile
"$drawpile" replay < examples/red-pixel.frames > /dev/null # builds it on first use

# Two workers, each of which ends after one link: so the server ends with its clients.
"$drawpile" serve "$addr" --workers 2 --conns 1 &
server=$!
sleep 1
"$drawpile" join "$addr" ann < examples/ann.script > "$kept/ann" &
ann=$!
for _ in $(seq 100); do
    grep -q '^took 0:2$' "$kept/ann" && break
    sleep 0.1
done
"$drawpile" join "$addr" bob < examples/bob.script > "$kept/bob"
wait "$ann"
wait "$server"
for name in ann bob; do
    sed -n '/^P3/,$p' "$kept/$name" > "$kept/$name.ppm"
done
cmp "$kept/ann.ppm" "$kept/bob.ppm"
cat "$kept/ann.ppm"
