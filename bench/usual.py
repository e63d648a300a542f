#!/usr/bin/env python3
"""Writes a usual session as a schedule: three clients, four layers, 400 strokes of 20 dabs, 12
chats, 10 undos, and a reset in the middle. It is examples/usual.world.

    bench/usual.py > examples/usual.world
"""
import math
import random

STROKES = 400
WIDTH, HEIGHT = 240, 160
# How many entries the new epoch opens with, and how many come before the first message.
OPENING, JOINED = 45, 5
LAYERS = [0x0101, 0x0102, 0x0201, 0x0301]
chance = random.Random(1)


def dabs(layer, color, places, size, opacity):
    """A DabsRound through these places."""
    (x, y) = places[0]
    payload = layer.to_bytes(2, "big")
    payload += x.to_bytes(4, "big", signed=True) + y.to_bytes(4, "big", signed=True)
    payload += bytes(color) + b"\x01"
    for at, (nx, ny) in enumerate(places):
        payload += (nx - x).to_bytes(1, "big", signed=True)
        payload += (ny - y).to_bytes(1, "big", signed=True)
        payload += bytes([max(1, size - abs(at - 10) // 3), opacity])
        (x, y) = (nx, ny)
    return "95" + payload.hex()


def sky(at):
    """A band of clouds and light."""
    y = at * 97 % 96
    x = at * 61 % WIDTH - 40
    places = [(x + 6 * k, round(y + 5 * math.sin(k / 3 + at))) for k in range(20)]
    warm = y / 96
    color = (90 + round(150 * warm), 140 + round(60 * warm), 230 - round(60 * warm))
    return dabs(0x0101, color, places, 22, 110)


def hill(at):
    """A slope of one of three hills."""
    row = at % 3
    x = at * 83 % WIDTH - 30
    places = []
    for k in range(20):
        px = x + 5 * k
        top = 92 + 16 * row + 12 * math.sin(px / (30 + 9 * row) + 2 * row)
        places.append((px, round(top + chance.random() * (HEIGHT - top) * 0.6)))
    color = (40 + 25 * row, 95 + 28 * row, 70 - 10 * row)
    return dabs(0x0201, color, places, 16, 150)


def tree(at):
    """A trunk with leaves."""
    x, y = at * 71 % WIDTH, 116 + at * 37 % 36
    places = [(x, y - k) for k in range(6)]
    places += [(x + chance.randint(-7, 7), y - 9 - chance.randint(0, 12)) for _ in range(14)]
    color = (chance.randint(120, 220), chance.randint(70, 140), 40)
    return dabs(0x0301, color, places, 7, 200)


def light(at):
    """Sparks on a layer of their own."""
    x, y = at * 53 % WIDTH, at * 29 % 70
    places = [(x + chance.randint(-20, 20), y + chance.randint(-12, 12)) for _ in range(20)]
    return dabs(0x0102, (255, 250, 225), places, 3, 160)


def say(client, message):
    return [f"say {client} {message}", f"up {client}"]


def takes(count):
    return [f"take {client}" for client in (1, 2, 3) for _ in range(count)]


def stroke(at):
    """A point and its stroke: client, and lines."""
    client = at % 3 + 1
    paint = [sky if at % 2 else light, hill, tree][client - 1]
    return say(client, "80") + say(client, paint(at))


def session():
    yield "# A usual session: three painters, four layers, 400 strokes, chats, undos and a reset."
    yield "# bench/usual.py writes it."
    yield from ["join ann", "join bob", "join cay"]
    yield from say(1, "81" + bytes(4).hex() + WIDTH.to_bytes(4, "big").hex()
                   + HEIGHT.to_bytes(4, "big").hex() + bytes(4).hex())
    for layer in [0x0101, 0x0102]:
        yield from say(1, f"82{layer:04x}000000")
    yield from say(2, "820201000000")
    yield from say(3, "820301000000")
    yield from takes(JOINED + 5)
    held = 0
    for at in range(STROKES):
        yield from stroke(at)
        held += 2
        if at % 33 == 20:
            yield from say(at % 3 + 1, "23" + f"stroke {at}".encode().hex())
            held += 1
        if at % 40 == 39:
            yield from say(at % 3 + 1, "ff0000")
            held += 1
        if at % 20 == 19:
            yield from takes(held)
            held = 0
        if at == STROKES // 2 - 1:
            yield from ["reset 1"] + ["up 1"] * RESET
            yield from takes(OPENING)
            yield from ["up 1", "up 2", "up 3"]
    yield from ["view 1", "view 2", "view 3", "rec 1"]


# How many messages the reset has.
RESET = 39
if __name__ == "__main__":
    print("\n".join(session()))
