#!/usr/bin/env bash
# A session that is kept in a file. Its server is killed, and started again on the same file: who
# joins then gets what was painted before. It prints that picture, and how many events are kept.
# PORT chooses another port than 7707.
set -eu
cd "$(dirname "$0")/.."
addr="127.0.0.1:${PORT:-7707}"
kept="$(mktemp -d)"
trap 'rm -rf "$kept"' EXIT
drawpile=bin/drawpile
"$drawpile" replay < examples/red-pixel.frames > /dev/null # builds it on first use

serve() {
    "$drawpile" serve "$addr" --workers 2 "$@" --journal "$kept/session.db" &
    server=$!
    sleep 1
}

# Ann and Bob paint, and the server is killed.
serve
"$drawpile" join "$addr" ann < examples/ann.script > "$kept/ann" &
ann=$!
for _ in $(seq 100); do
    grep -q '^took 0:2$' "$kept/ann" && break
    sleep 0.1
done
"$drawpile" join "$addr" bob < examples/bob.script > /dev/null
wait "$ann"
kill -9 "$server"
wait "$server" || true

# Eve gets their session: the entries up to Bob's last one, and a Leave of each.
serve --conns 1
"$drawpile" join "$addr" eve < examples/eve.script > "$kept/eve"
"$drawpile" join "$addr" kit < /dev/null > /dev/null
wait "$server"
sed -n '/^P3/,$p' "$kept/ann" > "$kept/ann.ppm"
sed -n '/^P3/,$p' "$kept/eve" > "$kept/eve.ppm"
cmp "$kept/ann.ppm" "$kept/eve.ppm"
cat "$kept/eve.ppm"
sqlite3 "$kept/session.db" 'select count(*) from journal'
