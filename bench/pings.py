#!/usr/bin/env python3
"""What a server takes while one painter sends 1,000 pings a second, and 63 others say nothing.

usage: bench/pings.py [PROGRAM] [SECONDS]     bin/drawpile and 3, if they aren't given

It prints the processor seconds of the server in that time, all its threads together. A ping places
nothing, so it is to wake no other painter.
"""
import os
import socket
import struct
import subprocess
import sys
import time
from pathlib import Path

TOP = Path(__file__).resolve().parent.parent
PAINTERS, RATE = 64, 1000
TICKS = os.sysconf("SC_CLK_TCK")


def frame(kind, payload):
    return struct.pack(">HBB", len(payload), kind, 0) + payload


def free_port():
    with socket.socket() as some:
        some.bind(("127.0.0.1", 0))
        return some.getsockname()[1]


def painter(port, number):
    """A link that was welcomed, and whose own Join has come."""
    for _ in range(100):
        try:
            link = socket.create_connection(("127.0.0.1", port))
            break
        except ConnectionRefusedError:
            time.sleep(0.05)
    link.sendall(frame(0, b"p%d" % number))
    assert len(link.recv(1 << 16)) >= 4, "the server answers"
    return link


def spent(process):
    """Processor seconds of a process."""
    fields = Path(f"/proc/{process.pid}/stat").read_text().rsplit(")", 1)[1].split()
    return (int(fields[11]) + int(fields[12])) / TICKS


def main():
    program = sys.argv[1] if len(sys.argv) > 1 else str(TOP / "bin/drawpile")
    seconds = float(sys.argv[2]) if len(sys.argv) > 2 else 3.0
    nothing = subprocess.DEVNULL
    subprocess.run([program, "replay"], stdin=nothing, stdout=nothing, check=True)
    port = free_port()
    server = subprocess.Popen([program, "serve", f"127.0.0.1:{port}", "--workers", str(PAINTERS)])
    try:
        links = [painter(port, number) for number in range(PAINTERS)]
        time.sleep(0.5)
        before, start, sent = spent(server), time.monotonic(), 0
        while (now := time.monotonic() - start) < seconds:
            due = int(now * RATE)
            for _ in range(due - sent):
                links[0].sendall(frame(2, b"\0"))
            sent = due
            time.sleep(0.001)
        took = spent(server) - before
        print(f"{sent} pings in {seconds:.0f} s beside {PAINTERS - 1} silent painters: {took:.2f} s")
    finally:
        server.kill()
        server.wait()


main()
