#!/usr/bin/env python3
"""Links with eight kinds of damage beside two painters, over real sockets.

usage: bench/bad_links.py PORT FOLDER [SECONDS]      of a server that runs

64 links, eight of each kind of `KINDS`, are open at a time, each opened again when it ends. Ann and
Bob come before them and paint at the same time. Each looks at what the server sends: the entries in
order, those of the other among them. It prints how late these came, and writes what each was sent
as a recording, FOLDER/ann.rec and FOLDER/bob.rec.
"""
import multiprocessing
import socket
import struct
import sys
import threading
import time

PORT, FOLDER = int(sys.argv[1]), sys.argv[2]
SECONDS = float(sys.argv[3]) if len(sys.argv) > 3 else 5.0
RATE = 200  # messages of a painter in a second
SIDE = 256
LAYER = 0x101


def frame(kind, payload=b''):
    return struct.pack('>HBB', len(payload), kind, 0) + payload


def hello(name):
    return frame(0, name)


def connect():
    link = socket.create_connection(('127.0.0.1', PORT))
    link.setsockopt(socket.IPPROTO_TCP, socket.TCP_NODELAY, 1)
    return link


def read_to_end(link):
    link.settimeout(10)
    while link.recv(65536):
        pass


def silent(link, stop):
    stop.wait()


def bad_first(link, stop):
    link.sendall(frame(20))
    read_to_end(link)


def cut_hello(link, stop):
    link.sendall(hello(b'cut')[:-1])


def bad_later(link, stop):
    link.sendall(hello(b'bad') + frame(35, b'hi') + frame(9))
    read_to_end(link)


def cut_later(link, stop):
    link.sendall(hello(b'gone') + frame(35, b'hi')[:-1])
    link.recv(15)
    link.setsockopt(socket.SOL_SOCKET, socket.SO_LINGER, struct.pack('ii', 1, 0))  # it is reset


def pings(link, stop):
    link.sendall(hello(b'pings'))
    while not stop.wait(0.01):
        link.sendall(frame(2, b'\0') * 10)


def reads_nothing(link, stop):
    link.sendall(hello(b'deaf'))
    stop.wait()


def slow(link, stop):
    for byte in hello(b'slow') + frame(35, b'hi') + frame(1, b'\0'):
        link.sendall(bytes([byte]))
        if stop.wait(0.05):
            return
    read_to_end(link)


KINDS = [silent, bad_first, cut_hello, bad_later, cut_later, pings, reads_nothing, slow]


def open_again(kind, stop, count):
    while not stop.is_set():
        try:
            with connect() as link:
                kind(link, stop)
        except OSError:
            pass
        with count.get_lock():
            count.value += 1
        stop.wait(0.05)


def bad_links(kind, stop, count):
    links = [threading.Thread(target=open_again, args=(kind, stop, count)) for _ in range(8)]
    for link in links:
        link.start()
    for link in links:
        link.join()


class Painter:
    """A painter, who notes when the other's messages come."""

    def __init__(self, name):
        self.link, self.bytes, self.came, self.said = connect(), b'', {}, {}
        self.marks = 0
        self.link.sendall(hello(name))
        self.reader = threading.Thread(target=self.read)
        self.reader.start()

    def read(self):
        held = b''
        while True:
            piece = self.link.recv(65536)
            now = time.perf_counter()
            if not piece:
                assert not held, 'a frame is cut'
                return
            held += piece
            while len(held) >= 4 and len(held) >= 4 + struct.unpack('>H', held[:2])[0]:
                size = 4 + struct.unpack('>H', held[:2])[0]
                self.take(held[:size], now)
                held = held[size:]

    def take(self, entry, now):
        if entry[2] == 4:
            self.user = struct.unpack('>HBII', entry[4:])[1]
            return
        self.bytes += entry
        if entry[2] == 137:
            self.came[(entry[3], entry[-3:])] = now
        if entry[2] == 35 and entry[4:] == b'done':
            self.marks += 1

    def say(self, message):
        self.link.sendall(message)

    def paint(self, row):
        start = time.perf_counter()
        for k in range(int(SECONDS * RATE)):
            time.sleep(max(0.0, start + k / RATE - time.perf_counter()))
            color = struct.pack('>I', k)[1:]
            self.said[(self.user, color)] = time.perf_counter()
            place = struct.pack('>HBIIII', LAYER, 1, k % SIDE, row, 1, 1)
            self.say(frame(137, place + b'\xff' + color))
        self.say(frame(35, b'done'))

    def wait(self, true):
        limit = time.time() + 60
        while not true():
            assert time.time() < limit, 'an entry is missing'
            time.sleep(0.01)


def delays(one, other):
    return [other.came[key] - said for key, said in one.said.items()]


def main():
    ann = Painter(b'ann')
    ann.wait(lambda: b'ann' in ann.bytes)
    ann.say(frame(129, struct.pack('>iiii', 0, SIDE, SIDE, 0)))
    ann.say(frame(130, struct.pack('>HHB', LAYER, 0, 0)))
    bob = Painter(b'bob')
    bob.wait(lambda: b'bob' in bob.bytes)
    stop, count = multiprocessing.Event(), multiprocessing.Value('i', 0)
    bad = [multiprocessing.Process(target=bad_links, args=(kind, stop, count)) for kind in KINDS]
    for links in bad:
        links.start()
    time.sleep(0.5)
    threads = [threading.Thread(target=p.paint, args=(row,)) for row, p in enumerate((ann, bob))]
    for thread in threads:
        thread.start()
    for thread in threads:
        thread.join()
    for painter in (ann, bob):
        painter.wait(lambda: painter.marks == 2)
    stop.set()
    for links in bad:
        links.join()
    late = sorted(delays(ann, bob) + delays(bob, ann))
    for name, painter in (('ann', ann), ('bob', bob)):
        painter.say(frame(1, b'\0'))
        painter.reader.join()
        text = b'{"profile":"dp-int-2"}'
        header = b'DPREC\0' + struct.pack('>H', len(text)) + text
        with open(f'{FOLDER}/{name}.rec', 'wb') as file:
            file.write(header + painter.bytes)
    ranks = [min(len(late) - 1, len(late) * p // 100) for p in (50, 99, 100)]
    half, most, all_came = (late[rank] * 1000 for rank in ranks)
    print(f'{count.value} bad links beside two painters; of {len(late)} messages half came within')
    print(f'{half:.2f} ms, 99 in 100 within {most:.2f} ms, and all within {all_came:.2f} ms')


if __name__ == '__main__':
    main()
