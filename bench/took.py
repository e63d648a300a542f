#!/usr/bin/env python3
"""How long after its frame `join` prints that it took an entry, while 8 painters say 1,000 messages
a second in all.

usage: YARDSTICK=PROGRAM bench/took.py [PROGRAM] [MESSAGES]   bin/drawpile and 5,000, if not given

YARDSTICK is a program with the commands `load` and `serve`, as for bench/serve.sh. Two links join
beside the painters: one of `join`, which takes all that comes, and one of this script. Each frame is
stamped when this script has it, and each `took` line too. The delay of an entry is the time from the
one to the other, which may be below zero: who is woken first has it first. Entries of the first
second aren't counted, since who joins gets those before it at once. It prints the delays at the
median and at 99 of 100, and the longest. The bound is 5 ms at 99 of 100, on an idle machine.
"""
import os
import selectors
import socket
import subprocess
import sys
import time
from pathlib import Path

from kill import frame

TOP = Path(__file__).resolve().parent.parent
PAINTERS, RATE, BOUND = 8, 1000, 0.005
PING, WELCOME = 2, 4
LOAD = ["--clients", str(PAINTERS), "--speakers", str(PAINTERS), "--rate", str(RATE)]


class Entries:
    """The entries of a link, counted as their frames come whole."""

    def __init__(self, link):
        self.link, self.rest, self.stamps = link, b"", []

    def read(self):
        self.rest += self.link.recv(1 << 16)
        now, start = time.monotonic(), 0
        while len(self.rest) - start >= 4:
            end = start + 4 + int.from_bytes(self.rest[start : start + 2], "big")
            if end > len(self.rest):
                break
            if self.rest[start + 2] not in (PING, WELCOME):
                self.stamps.append(now)
            start = end
        self.rest = self.rest[start:]


class Lines:
    """The lines `took E:N` of a painter, by N."""

    def __init__(self, pipe):
        self.pipe, self.rest, self.stamps = pipe, b"", {}

    def read(self):
        *lines, self.rest = (self.rest + os.read(self.pipe.fileno(), 1 << 16)).split(b"\n")
        now = time.monotonic()
        for line in lines:
            if line.startswith(b"took "):
                self.stamps[int(line.split(b":")[1])] = now


def listen(load, entries, lines):
    """Reads both until the load has ended and nothing more comes."""
    both = selectors.DefaultSelector()
    both.register(entries.link, selectors.EVENT_READ, entries)
    both.register(lines.pipe, selectors.EVENT_READ, lines)
    while True:
        events = both.select(0.5)
        for key, _ in events:
            key.data.read()
        if not events and load.poll() is not None:
            return


def free_port():
    with socket.create_server(("127.0.0.1", 0)) as free:
        return free.getsockname()[1]


def dial(port):
    for _ in range(100):
        try:
            return socket.create_connection(("127.0.0.1", port))
        except ConnectionRefusedError:
            time.sleep(0.05)
    raise SystemExit("the server doesn't answer")


def tell(entries, lines, began):
    late = sorted(
        lines.stamps[n] - stamp
        for n, stamp in enumerate(entries.stamps)
        if n in lines.stamps and stamp > began + 1
    )
    if not late:
        raise SystemExit("no entry was taken")
    at = late[len(late) * 99 // 100]
    print(f"{len(late)} of {len(entries.stamps)} entries counted, {len(lines.stamps)} taken in all")
    print(f"delay of `took`: median {late[len(late) // 2] * 1000:.2f} ms,", end=" ")
    print(f"99 of 100 {at * 1000:.2f} ms, longest {late[-1] * 1000:.2f} ms:", end=" ")
    print("within 5 ms" if at <= BOUND else "NOT within 5 ms")


def main():
    yardstick = os.environ["YARDSTICK"]
    program = sys.argv[1] if len(sys.argv) > 1 else str(TOP / "bin/drawpile")
    messages = sys.argv[2] if len(sys.argv) > 2 else "5000"
    port = free_port()
    address = f"127.0.0.1:{port}"
    workers = str(PAINTERS + 2)
    server = subprocess.Popen([yardstick, "serve", address, "--workers", workers])
    dial(port).close()
    load = subprocess.Popen([yardstick, "load", address, *LOAD, "--messages", messages])
    time.sleep(0.5)
    pipes = {"stdin": subprocess.PIPE, "stdout": subprocess.PIPE, "bufsize": 0}
    painter = subprocess.Popen([program, "join", address, "late"], **pipes)
    try:
        began, link = time.monotonic(), dial(port)
        link.sendall(frame(0, 0, b"beside"))
        painter.stdin.write(b"take 4000000000\n")
        entries, lines = Entries(link), Lines(painter.stdout)
        listen(load, entries, lines)
        tell(entries, lines, began)
    finally:
        for process in painter, load, server:
            process.kill()
            process.wait()


main()
