#!/usr/bin/env python3
"""Writes keys.txt: the public keys of 100 members, in hex, one on each line. The secret scalar of member i is i + 1.

A key is the encoding (RFC 8032) of its scalar times the base point of Ed25519.
"""
import os

P = 2**255 - 19
D = -121665 * pow(121666, -1, P) % P
BASE = (
    15112221349535400772501151409588531511454012693041857206046113283949847762202,
    46316835694926478169428394003475163141307993866256225615783033603165251855960,
)


def add(one, other):
    (x1, y1), (x2, y2) = one, other
    product = D * x1 * x2 * y1 * y2
    return (x1 * y2 + x2 * y1) * pow(1 + product, -1, P) % P, (y1 * y2 + x1 * x2) * pow(1 - product, -1, P) % P


def encoded(point):
    x, y = point
    return (y | (x & 1) << 255).to_bytes(32, "little")


def main():
    point = (0, 1)
    with open(os.path.join(os.path.dirname(os.path.abspath(__file__)), "keys.txt"), "w") as file:
        for _ in range(100):
            point = add(point, BASE)
            file.write(encoded(point).hex() + "\n")


if __name__ == "__main__":
    main()
