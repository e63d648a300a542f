#!/usr/bin/env python3
"""Eight clients paint over real sockets while one of them flattens the session each second.

usage: bench/keep.py [PROGRAM] [SECONDS]     bin/drawpile and 30, if they aren't given

The first client sends `keep` each second. At the end all clients take what there is: their pictures
are equal, and each stroke that a painter's own link was sent shows, unless a later one covers it. It
prints what it did, and fails if that is not so.
"""
import os
import selectors
import socket
import struct
import subprocess
import sys
import time
from pathlib import Path

TOP = Path(__file__).resolve().parent.parent
PAINTERS, WIDTH, EACH = 8, 64, 0.05
LAYER = 0x0101


def said(kind, payload):
    return bytes([kind]) + payload


def fill(x, y, stroke):
    """One pixel in a colour that tells which of its painter's strokes it is, from 1 on."""
    color = 0xFF000000 | stroke
    return said(137, struct.pack(">HBIIIII", LAYER, 1, x, y, 1, 1, color))


class Observer:
    """A link that takes each frame, and knows how far the history has come."""

    def __init__(self, port):
        self.link = socket.create_connection(("127.0.0.1", port))
        self.link.sendall(struct.pack(">HBB", 3, 0, 0) + b"eye")
        self.bytes, self.welcomed, self.epoch, self.at = b"", False, -1, -1
        self.seen = {}

    def read(self):
        self.bytes += self.link.recv(1 << 16)
        while len(self.bytes) >= 4:
            length, kind, user = struct.unpack(">HBB", self.bytes[:4])
            if len(self.bytes) < 4 + length:
                return
            payload, self.bytes = self.bytes[4 : 4 + length], self.bytes[4 + length :]
            self.take(kind, payload)

    def take(self, kind, payload):
        if not self.welcomed:
            assert kind == 4, "the first frame is the Welcome"
            self.welcomed = True
            return
        if kind == 37:
            self.epoch, self.at = struct.unpack(">I", payload[:4])[0], 0
        else:
            self.at += 1
        if kind == 137:
            layer, _mode, x, y, _w, _h, color = struct.unpack(">HBIIIII", payload)
            if layer == LAYER:
                self.seen[x, y] = max(self.seen.get((x, y), 0), color & 0xFFFFFF)

    def place(self):
        return (self.epoch, self.at)


class Painter:
    """A `join` of the program, which does one line of its script at a time."""

    def __init__(self, program, port, row):
        self.row, self.strokes, self.due, self.place = row, 0, 0, (-1, -1)
        self.text, self.waits, self.sent = b"", None, []
        self.run = subprocess.Popen(
            [program, "join", f"127.0.0.1:{port}", f"painter{row}"],
            stdin=subprocess.PIPE, stdout=subprocess.PIPE, bufsize=0)
        os.set_blocking(self.run.stdout.fileno(), False)

    def do(self, line, word):
        self.run.stdin.write(line.encode() + b"\n")
        self.waits = word

    def read(self):
        self.text += os.read(self.run.stdout.fileno(), 1 << 16)
        while b"\n" in self.text and self.waits:
            line, self.text = self.text.split(b"\n", 1)
            words = line.decode().split()
            assert words[0] == self.waits, f"{self.row}: {line} for {self.waits}"
            if words[0] == "took":
                self.place = tuple(int(n) for n in words[1].split(":"))
            if words[0] == "sent":
                self.sent.append(int(words[1]))
            self.waits = None

    def paint(self):
        self.strokes += 1
        x = self.strokes % WIDTH
        self.do("say " + fill(x, self.row, self.strokes).hex(), "said")

    def picture(self):
        self.run.stdin.write(b"conf\n")
        self.run.stdin.close()
        os.set_blocking(self.run.stdout.fileno(), True)
        text = self.text + self.run.stdout.read()
        assert self.run.wait() == 0, f"{self.row} ended with {self.run.returncode}"
        words = text.split()
        size = (int(words[1]), int(words[2]))
        numbers = [int(n) for n in words[4:]]
        assert words[0] == b"P3" and len(numbers) == 3 * size[0] * size[1]
        return size, numbers


def wait_for(selector, seconds, done):
    end = time.monotonic() + seconds
    while not done():
        assert time.monotonic() < end, "it takes too long"
        for key, _ in selector.select(0.01):
            key.data.read()


def main():
    program = sys.argv[1] if len(sys.argv) > 1 else str(TOP / "bin/drawpile")
    seconds = float(sys.argv[2]) if len(sys.argv) > 2 else 30
    port = int(os.environ.get("PORT", "7767"))
    subprocess.run([program, "replay"], stdin=subprocess.DEVNULL, stdout=subprocess.DEVNULL, check=True)
    server = subprocess.Popen([program, "serve", f"127.0.0.1:{port}", "--workers", "16"])
    try:
        time.sleep(1)
        paint_together(program, port, seconds)
    finally:
        server.terminate()
        server.wait()


def paint_together(program, port, seconds):
    selector = selectors.DefaultSelector()
    painters = []
    for row in range(PAINTERS):
        painters.append(Painter(program, port, row))
        selector.register(painters[row].run.stdout, selectors.EVENT_READ, painters[row])
        # Each takes the mark before the next one joins, so the first is the session's operator.
        painters[row].do("take 1", "took")
        wait_for(selector, 10, lambda: painters[row].waits is None)
    eye = Observer(port)
    selector.register(eye.link, selectors.EVENT_READ, eye)
    keeper = painters[0]
    for line in (said(129, struct.pack(">iiii", 0, WIDTH, PAINTERS, 0)),
                 said(130, struct.pack(">HHB", LAYER, 0, 0))):
        keeper.do("say " + line.hex(), "said")
        wait_for(selector, 10, lambda: keeper.waits is None)
    start = time.monotonic()
    keeps, now = start + 1, start
    while now < start + seconds:
        for painter in painters:
            if painter.waits:
                continue
            if painter is keeper and now >= keeps:
                painter.do("keep", "sent")
                keeps += 1
            elif now >= painter.due:
                painter.due = now + EACH
                painter.paint()
            elif painter.place < eye.place():
                painter.do("take 1", "took")
        for key, _ in selector.select(0.005):
            key.data.read()
        now = time.monotonic()
    finish(selector, painters, eye)


def finish(selector, painters, eye):
    still, place = time.monotonic() + 2, eye.place()
    end = time.monotonic() + 60
    while any(p.waits or p.place < eye.place() for p in painters) or time.monotonic() < still:
        assert time.monotonic() < end, "the painters don't come to the end"
        for painter in painters:
            if not painter.waits and painter.place < eye.place():
                painter.do("take 1", "took")
        for key, _ in selector.select(0.005):
            key.data.read()
        if eye.place() != place:
            still, place = time.monotonic() + 2, eye.place()
    pictures = [painter.picture() for painter in painters]
    assert all(p == pictures[0] for p in pictures), "the pictures differ"
    (width, _height), numbers = pictures[0]
    for (x, y), stroke in eye.seen.items():
        i = 3 * (y * width + x)
        shown = numbers[i] << 16 | numbers[i + 1] << 8 | numbers[i + 2]
        assert shown >= stroke, f"stroke {stroke} at {x} {y} is lost: {shown} shows"
    keeper, strokes = painters[0], sum(p.strokes for p in painters)
    print(f"{PAINTERS} painters said {strokes} strokes, {keeper.sent and len(keeper.sent)} resets kept; "
          f"epoch {eye.epoch} has {eye.at + 1} entries; the pictures are equal, and no stroke is lost")
    assert eye.epoch > 0, "no epoch was opened"


main()
