#!/usr/bin/env python3
"""Runs `world`, `replay` and `join` once for each call of the allocator, which is refused then.

usage: bench/refused.py [PROGRAM] [SCHEDULE]     bin/drawpile and inputs of its own, if not given

With status 0 the output has to be whole. With status 7 that of `world` has to be a beginning of the
whole report, and that of `replay` nothing. What `join` prints and what it sends has to be a beginning
each. Nothing else may come. The schedule of its own has two clients that paint in turn, with echoes,
strangers' commands that meet what was said or don't, points, undos, a Filtered, a reset and a `keep`.
Then each client has its canvases shown. The drawing has fills and dabs that wait across tiles, images
that wait, tiles, moves and an undo. The server of `join` is in this script: it sends entries of that
kind, chats and a second epoch at once, whatever it is sent. It needs a C compiler, `cc`.
"""
import os
import socket
import struct
import subprocess
import sys
import tempfile
import threading
from pathlib import Path

TOP = Path(__file__).resolve().parent.parent
SHIM = r"""
#define _GNU_SOURCE
#include <dlfcn.h>
#include <errno.h>
#include <stdlib.h>
#include <unistd.h>
static long left = -1;
static int is_refused(void) {
  if (left < 0) left = atol(getenv("REFUSE"));
  if (left == 0 || --left != 0) return 0;
  if (write(atoi(getenv("TELL")), "x", 1) != 1) _exit(99);
  errno = ENOMEM;
  return 1;
}
void *malloc(size_t n) {
  static void *(*real)(size_t);
  if (!real) real = dlsym(RTLD_NEXT, "malloc");
  return is_refused() ? 0 : real(n);
}
void *realloc(void *p, size_t n) {
  static void *(*real)(void *, size_t);
  if (!real) real = dlsym(RTLD_NEXT, "realloc");
  return is_refused() ? 0 : real(p, n);
}
"""
POINT, UNDO, REDO = "80", "ff0000", "ff0001"
WELCOME, JOIN, OWNERS, CHAT, MARK = 4, 32, 34, 35, 37


def fill(x):
    return f"89010101{x:08x}{0:08x}{2:08x}{2:08x}ff{x:02x}4080"


def said(client, hexadecimal):
    return [f"say {client} {hexadecimal}", f"up {client}"]


def schedule():
    """The lines of the schedule. A `take` that finds nothing prints `nothing`."""
    lines = ["join ann", "join bob", *said(1, "8100000000000000c8000000c800000000")]
    lines += [*said(1, "820101000000"), *said(2, "81" + "00" * 16)]
    both, shown = ["take 1", "take 2"], ["conf 1", "view 2"]
    lines += both * 9
    # From here on the first client's view keeps tiles of its own.
    lines += [*said(1, POINT), *both] * 130
    for n in range(6):
        lines += said(1, fill(n * 20)) + said(2, fill(n * 20 + 70)) + both * 2
    for piece in POINT, fill(10), UNDO, REDO:
        lines += said(1, piece) + both
    lines += [f"say 2 {fill(11)}", *said(1, fill(10)), *said(1, fill(90)), *both * 2, "up 2", *both]
    lines += [*said(1, fill(30)), "reset 1", *["up 1"] * 30, *both * 30, *said(2, fill(60))]
    lines += [*both, *shown, "keep 1", *said(2, fill(61)), *["up 1"] * 30, *both * 30, *shown]
    return "\n".join(lines + ["snap 2", "rec 1", "leave 1", "up 1", "cut 2", ""])


def frame(kind, payload):
    return struct.pack(">HBB", len(payload), kind, 1) + payload


def drawing():
    """Frames of a drawing on two layers of 200 by 200."""
    frames = [frame(129, struct.pack(">iiii", 0, 200, 200, 0))]
    frames += [frame(130, struct.pack(">HHB", layer, 0, 0)) for layer in (0x101, 0x102)]
    for n in range(40):
        layer, x, y = 0x101 + n % 2, n * 37 % 150, n * 53 % 150
        dabs = b"".join(struct.pack(">bbBB", 9, n % 7 - 3, 12 + n, 90 + n) for _ in range(6))
        image = b"".join(struct.pack(">I", 0x80000000 + n * 977 + k) for k in range(30 * 20))
        frames += [frame(128, b"")] if n % 5 == 0 else []
        frames.append(frame(137, struct.pack(">HBIIIII", layer, 1, x, y, 40, 30, 0x90402010 + n)))
        frames.append(frame(149 + n % 2, struct.pack(">Hii", layer, x, y) + bytes([n, 90, 30, 1]) + dabs))
        frames.append(frame(136, struct.pack(">HBIIII", layer, 1, x, y, 30, 20) + image))
        if n % 9 == 4:
            frames.append(frame(152, struct.pack(">HIIIIii", layer, x, y, 50, 50, y, x)))
        if n % 11 == 6:
            tile = struct.pack(">HHHHB", layer, n % 3, n % 2, 0, 0) + struct.pack(">HHHH", n, 9, 8, 99)
            frames.append(frame(146, tile))
    return b"".join([*frames, frame(255, b"\0\0")])


def entry(user, kind, payload):
    return struct.pack(">HBB", len(payload), kind, user) + payload


def link_of_join():
    """What the server sends, and the lines of the script."""
    def command(text):
        return bytes.fromhex(text)[0], bytes.fromhex(text)[1:]

    size, layer = "8100000000000000c8000000c800000000", "820101000000"
    first = [(0, MARK, struct.pack(">II", 0, 0)), (1, JOIN, b"\0ann"), (0, OWNERS, b"\1")]
    first += [(2, JOIN, b"\0bob"), (2, *command(size)), (2, *command(layer))]
    lines = [f"take {len(first)}", "view"]
    for n in range(6):
        lines += [f"say {POINT}", f"say {fill(n * 20)}", "take 3", "view" if n == 4 else "chat"]
        first += [(1, *command(POINT)), (2, *command(fill(n * 21))), (1, *command(fill(n * 20)))]
    first += [(2, CHAT, b"hi"), (1, *command(UNDO)), (2, *command(fill(99)))]
    lines += [f"say {UNDO}", f"say {fill(70)}", "take 3", "conf", "snap", "reset", "keep", "chat"]
    first += [(0, MARK, struct.pack(">II", 1, 0)), (2, *command(size)), (2, *command(layer))]
    lines += ["take 3", "view", f"say {fill(5)}", "view"]
    welcome = entry(0, WELCOME, struct.pack(">HBII", 1, 1, 0, 1))
    return welcome + b"".join(entry(*it) for it in first), "\n".join([*lines, ""]).encode()


class Server:
    """A server of one link, which sends all at once. What it is sent is in `came` at the end."""

    def __init__(self, sent):
        self.sent, self.came = sent, []
        self.listener = socket.create_server(("127.0.0.1", 0))
        self.port = self.listener.getsockname()[1]
        self.thread = threading.Thread(target=self.serve)
        self.thread.start()

    def serve(self):
        last = False
        while not last:
            link, (_, port) = self.listener.accept()
            with link:
                self.came.append(self.talk(link))
            last = self.came[-1] is None

    def talk(self, link):
        """What comes over the link; nothing if it is the last one, which `close` opens."""
        came = b""
        try:
            link.sendall(self.sent)
            while piece := link.recv(1 << 16):
                came += piece
        except OSError:
            pass
        return None if came == b"end" else came

    def close(self):
        """Waits until the link is read to its end, and gives what came."""
        with socket.create_connection(("127.0.0.1", self.port)) as link:
            link.sendall(b"end")
        self.thread.join()
        self.listener.close()
        return self.came[0] or b""


def run(program, words, text, refused, shim):
    """What the program answers and writes, and whether a call was refused."""
    end, other = os.pipe()
    words = ["env", f"LD_PRELOAD={shim}", f"REFUSE={refused}", f"TELL={other}", program, *words]
    ran = subprocess.run(words, input=text, capture_output=True, pass_fds=[other])
    os.close(other)
    told = os.read(end, 1)
    os.close(end)
    return ran.returncode, [ran.stdout], bool(told)


def run_join(program, words, text, refused, shim):
    """The same of `join`, with what it sent."""
    sent, script = text
    server = Server(sent)
    words = [*words, f"127.0.0.1:{server.port}", "ann"]
    status, out, told = run(program, words, script, refused, shim)
    return status, [*out, server.close()], told


def is_due(word, status, out, whole):
    """Whether a run may end so of which this is the whole output."""
    if status == 0:
        return out == whole
    if word == "replay":
        return status == 7 and out == [b""]
    return status == 7 and all(all_of.startswith(it) for it, all_of in zip(out, whole))


def try_each(program, word, text, shim):
    """Has each call be refused in turn. Whether something else came than is due."""
    runs = run_join if word == "join" else run
    status, whole, _ = runs(program, [word], text, 0, shim)
    if status != 0:
        raise SystemExit(f"{word} ends with status {status}")
    faults, wholes, refused = 0, 0, 1
    while True:
        status, out, told = runs(program, [word], text, refused, shim)
        if not told:
            break
        wholes += status == 0
        if not is_due(word, status, out, whole):
            faults += 1
            sizes = ", ".join(f"{len(it)} of {len(all_of)}" for it, all_of in zip(out, whole))
            print(f"{word}, call {refused}: status {status}, bytes {sizes}")
        refused += 1
    print(f"{word}: {refused - 1} calls refused in turn: {faults} wrong, {wholes} with all of the output")
    return faults > 0


def main():
    program = sys.argv[1] if len(sys.argv) > 1 else str(TOP / "bin/drawpile")
    text = Path(sys.argv[2]).read_bytes() if len(sys.argv) > 2 else schedule().encode()
    with tempfile.TemporaryDirectory() as folder:
        source, shim = Path(folder) / "shim.c", Path(folder) / "shim.so"
        source.write_text(SHIM)
        subprocess.run(["cc", "-O1", "-shared", "-fPIC", "-o", shim, source, "-ldl"], check=True)
        inputs = {"replay": drawing(), "join": link_of_join(), "world": text}
        wrong = [try_each(program, word, it, shim) for word, it in inputs.items()]
    return int(any(wrong))


if __name__ == "__main__":
    sys.exit(main())
