#!/usr/bin/env python3
"""Writes the folders under cases/: a page, a script, and what must be printed, by reference.py and never by the program."""
import os
import random

from reference import printed

TOP = os.path.join(os.path.dirname(os.path.abspath(__file__)), "..", "..", "cases")


def page(kind, modules, nets, pad=0, after=b"", count=None):
    bits = []

    def put(value, width):
        bits.extend(value >> (width - 1 - bit) & 1 for bit in range(width))

    put(kind, 4)
    put(modules, 7)
    put(len(nets) if count is None else count, 11)
    for pins, price in nets:
        put(len(pins), 7)
        for pin in pins:
            put(pin, 6)
        put(price, 32)
    while len(bits) % 8:
        bits.append(pad)
    return bytes(int("".join(map(str, bits[at : at + 8])), 2) for at in range(0, len(bits), 8)) + after


def wires(timers, rest):
    return timers << 16 | rest


FIVE = [(0, 1), (0, 2), (1, 2, 3), (3, 4), (2, 4)]
SMALL = bytes.fromhex("10600810008000000282042000000030")
FIVE_SCRIPT = b"p\ns 2 4\np\nm 0\np\nb\nb\np\ns 4 4\ns 0 5\nm 5\nm 4\nm 4\np\nb\nb\n"


def with_prices(nets, prices):
    return list(zip(nets, prices))


def random_page(kind, modules, count, size, seed):
    rolls = random.Random(seed)
    return page(kind, modules, [(rolls.sample(range(modules), size or rolls.randrange(2, min(modules, 6) + 1)), rolls.randrange(0, 9)) for _ in range(count)])


LONGEST = random_page(1, 64, 1024, 64, 1)
SEVENTY = random_page(1, 64, 70, 2, 2)
TWO = [((0, 1), 5), ((1, 2), 3)]

CASES = {
    "small": (SMALL, b"p\ns 1 2\np\ns 2 1\nb\np\n"),
    "small-pad-bit-set": (SMALL[:15] + b"\x31", b"p\n"),
    "small-fifteen-bytes": (SMALL[:15], b"p\n"),
    "five-modules-wires": (page(1, 5, with_prices(FIVE, [3, 2, 2, 4, 1])), FIVE_SCRIPT),
    "five-modules-timers-first": (page(2, 5, with_prices(FIVE, [wires(0, 3), wires(1, 2), wires(0, 2), wires(0, 4), wires(1, 1)])), FIVE_SCRIPT),
    "five-modules-widest": (page(3, 5, with_prices(FIVE, [3, 2, 2, 4, 1])), FIVE_SCRIPT),
    "no-nets": (page(1, 3, []), b"p\ns 0 1\np\ns 1 2\np\nm 0\n"),
    "one-module": (page(1, 1, []), b"p\n"),
    "no-modules": (page(3, 0, []), b"p\ns 0 0\n"),
    "longest": (LONGEST, b"p\ns 0 63\ns 7 8\nm 1023\nm 1024\np\nb\nb\np\n"),
    "longest-and-a-byte": (LONGEST + b"\0", b"p\n"),
    "sixty-four-changes": (SEVENTY, b"".join(b"m %d\n" % net for net in range(65)) + b"s 0 1\nm 63\np\nb\nm 64\np\n" + b"b\n" * 65 + b"p\n"),
    "dense-wires": (random_page(1, 24, 90, 0, 3), b"p\ns 3 17\np\nm 4\nm 5\np\ns 3 17\ns 17 22\np\nb\np\n"),
    "dense-timers-first": (random_page(2, 24, 90, 0, 4), b"p\ns 3 17\np\nm 4\nm 5\np\n"),
    "dense-widest": (random_page(3, 24, 90, 0, 5), b"p\ns 3 17\np\nm 4\nm 5\np\n"),
    "page-empty": (b"", b"p\n"),
    "page-kind-zero": (page(0, 3, TWO), b"p\n"),
    "page-kind-four": (page(4, 3, TWO), b"p\n"),
    "page-sixty-five-modules": (page(1, 65, TWO), b"p\n"),
    "page-too-many-nets": (page(2, 3, TWO, count=1025), b"p\n"),
    "page-net-of-one-pin": (page(3, 3, [((0, 1), 5), ((2,), 1)]), b"p\n"),
    "page-pin-not-there": (page(1, 3, [((0, 1), 5), ((1, 3), 1)]), b"p\n"),
    "page-pin-twice": (page(1, 3, [((0, 1), 5), ((1, 2, 1), 1)]), b"p\n"),
    "page-byte-follows": (SMALL + b"\0", b"p\n"),
    "script-empty": (SMALL, b""),
    "script-without-last-newline": (SMALL, b"p\ns 1 2\np"),
    "script-not-understood": (
        SMALL,
        b"\n p\np \ns  1 2\ns 01 2\ns 1 2 \ns +1 2\ns 1\ns 1 2 3\nm\nm 00001\nm 10000\nm 9999\ns 9999 0\nS 1 2\nm\t0\nb 1\nq\nm -1\n\xff\np\r\np\n",
    ),
    "script-of-most-bytes": (SMALL, b"b\n" * 32768),
    "script-too-long": (SMALL, b"b\n" * 32768 + b"p"),
    "script-too-long-page-refused": (SMALL[:15], b"b\n" * 32768 + b"p"),
}

for name, (data, script) in CASES.items():
    folder = os.path.join(TOP, name)
    os.makedirs(folder, exist_ok=True)
    for file, content in (("bench.page", data), ("script", script), ("expected", printed(data, script).encode())):
        with open(os.path.join(folder, file), "wb") as out:
            out.write(content)
print(f"{len(CASES)} cases written")
