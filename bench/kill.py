#!/usr/bin/env python3
"""Kills a server that keeps its rows in a file, over and over, and looks at what the file has.

usage: bench/kill.py PROGRAM ROUNDS [SEED]

In each round the server is started on the file, some painters chat and set undo points as fast as
they can, and others only read. After 5 to 400 ms it is killed (in every tenth round it is asked to
end, and in every tenth a half of a row is written behind the log's end, too). Then:

- sqlite3 finds the file whole, and the rows numbered from 0 without a gap;
- the rows that were there before are the first ones, and a Close of each connection that these left
  open comes after them, by rising number;
- every entry that a painter was sent stands in the history that the rows lead to, at its place;
- of each painter's messages the rows have the first ones, in order.

The history is worked out here, by docs/protocol.md alone. A new file is begun every 50 rounds."""
import os
import random
import signal
import socket
import sqlite3
import subprocess
import sys
import tempfile
import threading
import time

JOIN, LEAVE, OWNERS, CHAT, MARK, UNDO_POINT = 32, 33, 34, 35, 37, 128


def frame(kind, user, payload):
    return len(payload).to_bytes(2, "big") + bytes([kind, user]) + payload


def frames_of(data):
    """The whole frames of some bytes."""
    found, at = [], 0
    while at + 4 <= len(data):
        end = at + 4 + int.from_bytes(data[at : at + 2], "big")
        if end > len(data):
            break
        found.append(data[at:end])
        at = end
    return found


class Session:
    """The session that rows lead to, if nobody resets and all messages are permitted."""

    def __init__(self):
        self.history = [frame(MARK, 0, bytes(8))]
        self.users, self.owners = {}, set()
        self.given = 0
        self.said = {}

    def make_owner(self, user):
        self.owners = {user}
        self.history.append(frame(OWNERS, 0, bytes([user])))

    def open(self, name):
        user = min(set(range(1, 255)) - set(self.users.values()))
        alone = not self.users
        self.given += 1
        self.users[self.given] = user
        self.history.append(frame(JOIN, user, b"\0" + name))
        if alone:
            self.make_owner(user)

    def close(self, conn):
        if conn in self.users:
            user = self.users.pop(conn)
            self.history.append(frame(LEAVE, user, b""))
            present = set(self.users.values())
            if user in self.owners and present and not self.owners & present:
                self.make_owner(min(present))

    def take(self, row):
        if row[0] == 0:
            self.open(row[2:])
            return
        conn = int.from_bytes(row[1:5], "big")
        if row[0] == 2:
            self.close(conn)
        elif conn in self.users:
            self.said.setdefault(conn, []).append(row[5:])
            self.history.append(frame(row[5], self.users[conn], row[6:]))


class Painter(threading.Thread):
    """A painter that speaks, or only reads, until its link ends."""

    def __init__(self, port, name, speaks):
        super().__init__(daemon=True)
        self.name_bytes, self.speaks = name, speaks
        self.got, self.sent = b"", []
        self.link = socket.create_connection(("127.0.0.1", port), timeout=20)
        self.link.sendall(frame(0, 0, name))

    def speak(self):
        k = 0
        try:
            while True:
                burst = 40 if random.random() < 0.02 else 1
                for _ in range(burst):
                    text = b"%s %d" % (self.name_bytes, k)
                    said = (UNDO_POINT, b"") if k % 10 == 9 else (CHAT, text)
                    self.sent.append(bytes([said[0]]) + said[1])
                    k += 1
                self.link.sendall(b"".join(frame(it[0], 0, it[1:]) for it in self.sent[-burst:]))
                time.sleep(random.random() * 0.003)
        except OSError:
            pass

    def run(self):
        if self.speaks:
            threading.Thread(target=self.speak, daemon=True).start()
        try:
            while piece := self.link.recv(65536):
                self.got += piece
        except OSError:
            pass


def rows_of(file):
    base = sqlite3.connect(file)
    whole = base.execute("PRAGMA integrity_check").fetchall()
    # A server that was killed at once has not made the table yet.
    tables = base.execute("SELECT name FROM sqlite_schema").fetchall()
    select = "SELECT n, bytes FROM journal ORDER BY n"
    rows = base.execute(select).fetchall() if tables else []
    base.close()
    assert whole == [("ok",)], whole
    assert [n for n, _ in rows] == list(range(len(rows))), "rows aren't numbered without a gap"
    return [row for _, row in rows]


def start(program, file):
    with socket.create_server(("127.0.0.1", 0)) as free:
        port = free.getsockname()[1]
    words = [program, "serve", f"127.0.0.1:{port}", "--workers", "8", "--journal", file]
    began = time.time()
    server = subprocess.Popen(words, stdin=subprocess.DEVNULL, stderr=subprocess.PIPE)
    while True:
        try:
            socket.create_connection(("127.0.0.1", port), timeout=20).close()
            return server, port, time.time() - began
        except ConnectionRefusedError:
            assert server.poll() is None, server.communicate()
            time.sleep(0.005)


def faults_of(before, rows, painters):
    """What is wrong with the rows after a round."""
    if rows[: len(before)] != before:
        yield "rows that were there have changed"
    session = Session()
    for row in before:
        session.take(row)
    left = [b"\2" + conn.to_bytes(4, "big") for conn in sorted(session.users)]
    front = rows[len(before) : len(before) + len(left)]
    if front != left[: len(front)]:
        yield "connections that were left open aren't closed first, in order"
    names = []
    for row in rows[len(before) :]:
        if row[0] == 0:
            names.append((row[2:], session.given + 1))
        session.take(row)
    for painter in painters:
        entries = frames_of(painter.got)[1:]
        if entries != session.history[: len(entries)]:
            yield f"{painter.name_bytes}: an entry that was sent isn't in the history"
        for name, conn in names:
            said = session.said.get(conn, [])
            if name == painter.name_bytes and said != painter.sent[: len(said)]:
                yield f"{painter.name_bytes}: other messages are kept"


def play(program, file, number):
    """One round; it answers the painters, and how long the start took."""
    server, port, took = start(program, file)
    painters = []
    try:
        for k in range(5):
            painters.append(Painter(port, b"p%d.%d" % (number, k), k < 3))
    except OSError:
        pass
    for painter in painters:
        painter.start()
    time.sleep(random.uniform(0.005, 0.4))
    server.send_signal(signal.SIGTERM if number % 10 == 9 else signal.SIGKILL)
    server.wait()
    server.stderr.close()
    for painter in painters:
        painter.join(20)
        painter.link.close()
    if number % 10 == 4 and os.path.exists(f"{file}-wal"):
        with open(f"{file}-wal", "ab") as log:
            log.write(os.urandom(random.randrange(1, 4000)))
    return painters, took


def main():
    program, rounds = os.path.realpath(sys.argv[1]), int(sys.argv[2])
    random.seed(int(sys.argv[3]) if len(sys.argv) > 3 else 1)
    bad = entries = longest = kept = 0
    with tempfile.TemporaryDirectory() as folder:
        before = []
        for number in range(rounds):
            if number % 50 == 0:
                kept += len(before)
                before = []
            file = f"{folder}/{number // 50}.db"
            painters, took = play(program, file, number)
            longest = max(longest, took)
            rows = rows_of(file)
            entries += sum(len(frames_of(it.got)) for it in painters)
            for fault in faults_of(before, rows, painters):
                bad += 1
                print(f"round {number}: {fault}", flush=True)
            before = rows
        kept += len(before)
    print(f"{rounds} rounds, {kept} rows kept, {entries} entries sent, {bad} faults,"
          f" longest start {longest:.2f} s")
    return bad > 0


if __name__ == "__main__":
    sys.exit(main())
