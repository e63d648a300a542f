#!/usr/bin/env python3
"""Times a server that keeps its rows in a file, beside what the disk itself takes.

usage: bench/journal.py PROGRAM [ROWS]      ROWS of the file that is served again (else 1,000,000)

It prints SYNC, the median of 1,000 fdatasyncs after writes of 4 KB, and then:

- put: 2,000 chats of one painter in one go, the time of each, with SYNC taken off, and the
  processor's;
- delay: 8 painters who say 1,000 messages a second in all for 5 s, and the delay until each of the
  8 has a message, at the median and at 99 of 100. If YARDSTICK is a program with the command `load`
  (as for bench/serve.sh), that one measures it; else sixteen threads here, which add to it;
- again: a file of ROWS rows of 35 bytes is served, until the first painter is answered;
- memory: the most that a server takes for the same chats, with a file and without one.

It says which of the bounds hold: a put at most SYNC and 150 us; 99 of 100 delays at most 20 ms and 4
SYNC, where SYNC is at most 0.5 ms; a file of 1,000,000 rows served in 5 s; 20 MB more memory. They
are of a machine that is otherwise idle."""
import os
import re
import socket
import sqlite3
import statistics
import subprocess
import sys
import tempfile
import threading
import time

from kill import CHAT, frame, frames_of

PAINTERS, RATE, SECONDS, CHATS = 8, 1000, 5, 2000


def sync_time(folder):
    times = []
    with open(f"{folder}/sync", "wb", buffering=0) as file:
        for _ in range(1000):
            file.write(bytes(4096))
            began = time.perf_counter()
            os.fdatasync(file.fileno())
            times.append(time.perf_counter() - began)
    return statistics.median(times)


def start(program, file, workers):
    with socket.create_server(("127.0.0.1", 0)) as free:
        port = free.getsockname()[1]
    words = [program, "serve", f"127.0.0.1:{port}", "--workers", str(workers)]
    words += ["--journal", file] if file else []
    return subprocess.Popen(words, stdin=subprocess.DEVNULL), port


def join(port, name):
    """A link whose painter was greeted. The server may still be reading its file."""
    while True:
        try:
            link = socket.create_connection(("127.0.0.1", port), timeout=60)
            break
        except ConnectionRefusedError:
            time.sleep(0.002)
    link.settimeout(60)
    link.setsockopt(socket.IPPROTO_TCP, socket.TCP_NODELAY, 1)
    link.sendall(frame(0, 0, name))
    got = link.recv(65536)
    assert got, "nobody was greeted"
    return link, got


def usage_of(server):
    """Seconds of the processor, and the most memory in MB."""
    status = open(f"/proc/{server.pid}/status", encoding="utf-8").read()
    peak = int(status.split("VmHWM:")[1].split()[0]) / 1024
    ticks = open(f"/proc/{server.pid}/stat", encoding="utf-8").read().rsplit(")", 1)[1].split()
    return (int(ticks[11]) + int(ticks[12])) / os.sysconf("SC_CLK_TCK"), peak


def stop(server):
    server.terminate()
    server.wait()


def one_painter(program, file):
    """Times the chats of one painter, until the last one has come back."""
    server, port = start(program, file, 1)
    link, got = join(port, b"ann")
    before = usage_of(server)[0]
    began = time.perf_counter()
    link.sendall(b"".join(frame(CHAT, 0, b"%06d" % k) for k in range(CHATS)))
    while b"%06d" % (CHATS - 1) not in got[-64:]:
        piece = link.recv(65536)
        assert piece, "the link has ended"
        got += piece
    took = time.perf_counter() - began
    after, peak = usage_of(server)
    link.close()
    stop(server)
    return took / CHATS, (after - before) / CHATS, peak


class Painter(threading.Thread):
    """Chats at a steady rate, and notes when each message of anyone comes."""

    def __init__(self, port, name):
        super().__init__(daemon=True)
        self.link, self.got = join(port, name)
        self.tag, self.sent, self.delays = name, {}, []

    def speak(self, began):
        for k in range(RATE * SECONDS // PAINTERS):
            wait = began + k * PAINTERS / RATE - time.perf_counter()
            if wait > 0:
                time.sleep(wait)
            text = b"%s %d %.6f" % (self.tag, k, time.perf_counter())
            self.link.sendall(frame(CHAT, 0, text))

    def run(self):
        rest = self.got
        wanted = RATE * SECONDS // PAINTERS * PAINTERS
        while len(self.delays) < wanted:
            whole = frames_of(rest)
            now = time.perf_counter()
            self.delays += [now - float(it[4:].split()[2]) for it in whole if it[2] == CHAT]
            rest = rest[sum(len(it) for it in whole) :]
            if len(self.delays) < wanted:
                piece = self.link.recv(65536)
                if not piece:
                    return
                rest += piece


def delays(program, file):
    server, port = start(program, file, PAINTERS)
    painters = [Painter(port, b"p%d" % k) for k in range(PAINTERS)]
    began = time.perf_counter() + 0.2
    for painter in painters:
        painter.start()
        threading.Thread(target=painter.speak, args=(began,), daemon=True).start()
    for painter in painters:
        painter.join(timeout=120)
    all_of = sorted(delay for painter in painters for delay in painter.delays)
    stop(server)
    assert len(all_of) == RATE * SECONDS // PAINTERS * PAINTERS * PAINTERS, "messages are lost"
    return all_of[len(all_of) // 2], all_of[len(all_of) * 99 // 100]


def delays_by_load(program, file):
    server, port = start(program, file, PAINTERS)
    words = f"load 127.0.0.1:{port} --clients {PAINTERS} --speakers {PAINTERS} --rate {RATE}".split()
    words = [os.environ["YARDSTICK"], *words, "--messages", str(RATE * SECONDS)]
    said = subprocess.run(words, capture_output=True, text=True, check=True).stdout
    stop(server)
    found = re.search(r"delay p50 ([\d.]+) p99 ([\d.]+)", said)
    return float(found[1]) / 1e3, float(found[2]) / 1e3


def served_again(program, file, rows):
    base = sqlite3.connect(file)
    base.execute("CREATE TABLE journal (n INTEGER PRIMARY KEY, bytes BLOB NOT NULL) STRICT")
    chat = b"\3\0\0\0\1\x23" + b"a chat of 29 bytes, a small one"[:29]
    base.executemany(
        "INSERT INTO journal VALUES (?, ?)",
        ((n, b"\0\0ann" if n == 0 else chat) for n in range(rows)),
    )
    base.commit()
    base.close()
    began = time.perf_counter()
    server, port = start(program, file, 1)
    link, _ = join(port, b"bob")
    took = time.perf_counter() - began
    peak = usage_of(server)[1]
    link.close()
    stop(server)
    return took, peak


def says(holds):
    return "holds" if holds else "DOESN'T HOLD"


def main():
    program = os.path.realpath(sys.argv[1])
    rows = int(sys.argv[2]) if len(sys.argv) > 2 else 1_000_000
    with tempfile.TemporaryDirectory(dir=".") as folder:
        sync = sync_time(folder)
        print(f"SYNC {sync * 1e3:.2f} ms")
        took, processor, kept = one_painter(program, f"{folder}/put.db")
        print(
            f"put: {took * 1e3:.2f} ms each, {(took - sync) * 1e6:.0f} us beside SYNC: "
            f"{says(took - sync <= 150e-6)}; {processor * 1e6:.0f} us of processor"
        )
        measure = delays_by_load if "YARDSTICK" in os.environ else delays
        middle, late = measure(program, f"{folder}/delay.db")
        bound = says(late <= 0.02 + 4 * sync) if sync <= 0.0005 else "SYNC is too long to say"
        print(f"delay: {middle * 1e3:.1f} ms, 99 of 100 {late * 1e3:.1f} ms: {bound}")
        took, peak = served_again(program, f"{folder}/again.db", rows)
        bound = says(took <= 5 * rows / 1_000_000)
        print(f"again: {rows} rows, {took:.2f} s: {bound}; {peak:.0f} MB")
        bare = one_painter(program, None)[2]
        print(f"memory: {kept:.1f} MB, {bare:.1f} MB without a file: {says(kept - bare <= 20)}")


main()
