#!/usr/bin/env python3
"""Writes four pages into a folder: 64 modules and 1,024 nets of 2, 3, 8 and 64 pins, in wires, from fixed seeds: pages.py FOLDER"""
import random
import sys


def page(nets):
    bits = []

    def put(value, width):
        bits.extend(value >> (width - 1 - bit) & 1 for bit in range(width))

    put(1, 4)
    put(64, 7)
    put(len(nets), 11)
    for pins, price in nets:
        put(len(pins), 7)
        for pin in pins:
            put(pin, 6)
        put(price, 32)
    bits.extend([0] * (-len(bits) % 8))
    return bytes(int("".join(map(str, bits[at : at + 8])), 2) for at in range(0, len(bits), 8))


for size in (2, 3, 8, 64):
    rolls = random.Random(size)
    nets = [(rolls.sample(range(64), size), rolls.randrange(1, 1000)) for _ in range(1024)]
    with open(f"{sys.argv[1]}/{size}.page", "wb") as out:
        out.write(page(nets))
