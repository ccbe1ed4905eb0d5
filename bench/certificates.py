#!/usr/bin/env python3
"""Times the check of a certificate of 67 votes under a committee of 100 beside libsodium and OpenSSL, by processor time and by turns.

    bench/certificates.py ARCHIVE

ARCHIVE is the C library, as bindings/rust/prebuilt/x86_64-linux/libnw.a. It needs a C compiler and the Debian packages libsodium-dev,
libssl-dev and python3-cryptography. Each number is the median of 7 turns, in microseconds a signature.
"""
import hashlib
import os
import statistics
import subprocess
import sys
import tempfile

from ed25519 import signed

HERE = os.path.dirname(os.path.abspath(__file__))
SUBJECT = bytes([7]) + bytes(31) + (12).to_bytes(6, "big") + (3).to_bytes(2, "big")
TURNS, MEMBERS, VOTES = 7, 100, 67


def main(archive):
    with tempfile.TemporaryDirectory() as folder:
        tool, file = folder + "/certificates", folder + "/file"
        sources = [HERE + "/certificates.c", HERE + "/../bindings/c/alloc.c", archive]
        subprocess.run(["cc", "-O2", "-o", tool, *sources, "-lsodium", "-lcrypto"], check=True)
        text = bytes.fromhex(subprocess.run([tool, "text"], stdout=subprocess.PIPE, check=True, text=True).stdout)
        members = [signed(hashlib.sha256(b"%d" % i).digest(), text) for i in range(MEMBERS)]
        with open(file, "wb") as out:
            out.write(b"".join(key for key, _, _ in members))
            out.write(b"\x02" + SUBJECT + VOTES.to_bytes(2, "big"))
            out.write(b"".join(i.to_bytes(2, "big") + members[i][2] for i in range(VOTES)))
        made, *turns = subprocess.run([tool, file, str(TURNS)], stdout=subprocess.PIPE, check=True, text=True).stdout.splitlines()
    sodium, openssl, own = (statistics.median(map(float, times)) for times in zip(*map(str.split, turns)))
    print("nw_committee_new of %d keys: %.1f ms" % (MEMBERS, float(made) / 1e3))
    for name, it in ("libsodium", sodium), ("OpenSSL", openssl), ("nw_check", own):
        print("%-10s %6.1f us, %.2f of libsodium, %.2f of OpenSSL" % (name, it, it / sodium, it / openssl))


if __name__ == "__main__":
    main(*sys.argv[1:])
