#!/usr/bin/env bash
# Times `serve` under load: links on the loopback whose clients check that each message comes once and in order.
# YARDSTICK is a program with the commands `load` and `serve`: the load generator, and a fast server to compare with.
set -eu
cd "$(dirname "$0")/.."
yardstick=${YARDSTICK:?the program with the commands load and serve}
port=${PORT:-7717}

# run NAME SERVER.. -- LOAD.. : starts the server, and prints what the load generator says
run() {
  local name=$1 server=() pid
  shift
  while [ "$1" != -- ]; do server+=("$1") && shift; done
  shift
  "${server[@]}" serve "127.0.0.1:$port" --workers 64 --conns 1 &
  pid=$!
  sleep 1
  printf '%s %s\n  ' "$name" "$*"
  "$yardstick" load "127.0.0.1:$port" "$@" --pid "$pid" || true
  kill "$pid" 2>/dev/null || true
  wait "$pid" 2>/dev/null || true
  port=$((port + 1))
}

bin/drawpile replay < examples/red-pixel.frames > /dev/null # builds it on first use
for load in "--clients 2 --messages 1000000" "--clients 64 --messages 1000000" \
  "--clients 64 --messages 1000000 --speakers 8 --slow 8" "--clients 64 --messages 1000000 --speakers 64" \
  "--clients 64 --messages 5000 --rate 1000"; do
  # shellcheck disable=SC2086
  run drawpile bin/drawpile -- $load
  # shellcheck disable=SC2086
  run yardstick "$yardstick" -- $load
done
# 1,000 pings a second beside 63 painters who say nothing.
for program in bin/drawpile "$yardstick"; do
  printf '%s: ' "$(basename "$program")"
  bench/pings.py "$program"
done
# A painter who joins when 1,000,000 entries are there.
for program in bin/drawpile "$yardstick"; do
  printf '%s: ' "$(basename "$program")"
  bench/late.py "$program"
done
