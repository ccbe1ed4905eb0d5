#!/usr/bin/env python3
"""Times verifications of Ed25519 beside libsodium and OpenSSL, by processor time and by turns.

    bench/signatures.py PROGRAM..

Each PROGRAM is an executable of test_ed25519. It needs a C compiler and the Debian packages libsodium-dev, libssl-dev and python3-cryptography.
The claims are 5,000 signatures of 44 bytes by 50 keys. Each number is the median of 7 turns, in microseconds a signature. The time of
test_ed25519 is without its reading: the script subtracts the time of the same lines with an S above the order, which are refused before any
computation with points. It prepares a key that two lines in a row have, so it gets the claims by key and mixed.
"""
import hashlib
import os
import random
import resource
import statistics
import subprocess
import sys
import tempfile

from ed25519 import signed

HERE = os.path.dirname(os.path.abspath(__file__))
TURNS = 7


def timed(program, lines, answer, count):
    begin = resource.getrusage(resource.RUSAGE_CHILDREN).ru_utime
    answers = subprocess.run([program], input=lines, stdout=subprocess.PIPE, check=True).stdout
    assert answers == answer * count
    return (resource.getrusage(resource.RUSAGE_CHILDREN).ru_utime - begin) * 1e6 / count


def lines_of(claims):
    return "".join("%s %s %s\n" % tuple(part.hex() for part in claim) for claim in claims).encode()


def main(programs):
    draw = random.Random(25519)
    claims = [signed(hashlib.sha256(b"%d" % (i % 50)).digest(), draw.randbytes(44)) for i in range(5000)]
    orders = {"mixed": claims, "by key": sorted(claims)}
    lines = {order: lines_of(orders[order]) for order in orders}
    only_read = lines_of((key, text, signature[:32] + bytes([255] * 32)) for key, text, signature in claims)
    runs = [(program, order) for program in programs for order in orders]
    times = {name: [] for name in ["libsodium", "OpenSSL"] + runs}
    with tempfile.TemporaryDirectory() as folder:
        tool, file = folder + "/signatures", folder + "/claims"
        subprocess.run(["cc", "-O2", "-o", tool, HERE + "/signatures.c", "-lsodium", "-lcrypto"], check=True)
        with open(file, "wb") as out:
            out.write(b"".join(b"".join(claim) for claim in claims))
        for _ in range(TURNS):
            sodium, openssl = subprocess.run([tool, file, "1"], stdout=subprocess.PIPE, check=True).stdout.split()
            times["libsodium"].append(float(sodium))
            times["OpenSSL"].append(float(openssl))
            for program, order in runs:
                reading = timed(program, only_read, b"no\n", len(claims))
                times[program, order].append(timed(program, lines[order], b"yes\n", len(claims)) - reading)
    base, openssl = (statistics.median(times[name]) for name in ("libsodium", "OpenSSL"))
    for name, all_times in times.items():
        it = statistics.median(all_times)
        title = name if isinstance(name, str) else "%s, %s" % name
        print("%-45s %6.1f us, %.2f of libsodium, %.2f of OpenSSL" % (title, it, it / base, it / openssl))


if __name__ == "__main__":
    main(sys.argv[1:])
