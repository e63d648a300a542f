#!/usr/bin/env python3
"""How long a painter who joins late waits for the history of a session that is served.

usage: bench/late.py [PROGRAM] [ENTRIES]     bin/drawpile and 1000000, if they aren't given

One painter says so many fills. Then others join, one after the other, and take all frames. It prints
the seconds of each, from its connect on.
"""
import socket
import struct
import subprocess
import sys
import threading
import time
from pathlib import Path

TOP = Path(__file__).resolve().parent.parent
JOINERS = 7


def frame(kind, payload):
    return struct.pack(">HBB", len(payload), kind, 0) + payload


FILL = frame(137, struct.pack(">HBIIIII", 0x0101, 1, 3, 4, 4, 4, 0xFF010203))


def free_port():
    with socket.socket() as some:
        some.bind(("127.0.0.1", 0))
        return some.getsockname()[1]


def painter(port, name):
    """A link that has said its Hello."""
    for _ in range(100):
        try:
            link = socket.create_connection(("127.0.0.1", port))
            break
        except ConnectionRefusedError:
            time.sleep(0.05)
    link.sendall(frame(0, name))
    return link


def take(link, count, room=bytearray(1 << 20)):
    """Takes so many bytes."""
    while count > 0:
        took = link.recv_into(room)
        assert took > 0, "the server goes on"
        count -= took


def main():
    program = sys.argv[1] if len(sys.argv) > 1 else str(TOP / "bin/drawpile")
    entries = int(sys.argv[2]) if len(sys.argv) > 2 else 1_000_000
    nothing = subprocess.DEVNULL
    subprocess.run([program, "replay"], stdin=nothing, stdout=nothing, check=True)
    port = free_port()
    server = subprocess.Popen([program, "serve", f"127.0.0.1:{port}", "--workers", "16"])
    try:
        first = painter(port, b"first")
        history = entries * len(FILL)
        heard = threading.Thread(target=take, args=(first, history))
        heard.start()
        for _ in range(entries // 1000):
            first.sendall(FILL * 1000)
        first.sendall(FILL * (entries % 1000))
        heard.join()
        times = []
        for number in range(JOINERS):
            start = time.monotonic()
            late = painter(port, b"late%d" % number)
            take(late, history)
            times.append(time.monotonic() - start)
            late.close()
        print(f"{entries} entries, {history} bytes: {' '.join(f'{it:.3f}' for it in times)} s")
    finally:
        server.kill()
        server.wait()


main()
