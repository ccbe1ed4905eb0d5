#!/usr/bin/env python3
"""Makes corpus.txt: the keys, messages and signatures that the examples and the doc tests use.

    make.py            writes corpus.txt beside this file
    make.py --check    exits with status 1 if corpus.txt differs

It needs python3-cryptography, which signs with OpenSSL. docs/FORMATS.md has the formats of messages. The file has one value per
line, a kind and bytes in hex:

    key       the public key of a member, by number
    message   what `quickstart` receives: blocks and certificates of rounds 0 and 1
    vote      three votes for the first of these blocks, by members 0, 1 and 3
    block     what the members of `validator` make: their blocks of 9 rounds, by round and author
    twin      a second block of round 3 and author 1
    forged    a block of round 5 and author 2 with a bad signature
    signed    what a member signs in `validator`: its number (2), the text of a vote (44), the signature (64)
"""
import hashlib
import os
import sys

from cryptography.hazmat.primitives.asymmetric.ed25519 import Ed25519PrivateKey
from cryptography.hazmat.primitives.serialization import Encoding, PublicFormat

MEMBERS = range(4)
ROUNDS = range(9)
TWIN, FORGED = (3, 1), (5, 2)


def secret(member):
    seed = hashlib.sha256(b"narwhal-store example, member %d" % member).digest()
    return Ed25519PrivateKey.from_private_bytes(seed)


SECRETS = [secret(member) for member in MEMBERS]


class Pcg32:
    """The generator that draws which parents a block has (PCG32)."""

    def __init__(self, state, stream):
        self.step = 2 * stream + 1
        self.state = state + self.step
        self.advance()

    def advance(self):
        self.state = (self.state * 6364136223846793005 + self.step) % 2**64

    def word(self):
        state = self.state
        self.advance()
        mixed = (state >> 18 ^ state) >> 27 & 0xFFFFFFFF
        turn = state >> 59
        return (mixed >> turn | mixed << 32 - turn) & 0xFFFFFFFF


def number(value, size):
    return value.to_bytes(size, "big")


def body(round_, author, parents, transactions):
    text = bytes([1]) + number(author, 2) + number(round_, 6) + number(len(parents), 2)
    for parent, digest in parents:
        text += number(parent, 2) + digest
    text += number(len(transactions), 2)
    for transaction in transactions:
        text += number(len(transaction), 4) + transaction
    return text


def subject(digest, round_, author):
    return digest + number(round_, 6) + number(author, 2)


def signed_block(round_, author, parents, transactions):
    """The digest of the block, and its message."""
    text = body(round_, author, parents, transactions)
    digest = hashlib.sha256(text).digest()
    return digest, bytes([1]) + text + SECRETS[author].sign(b"NWBK" + digest)


def seal(what, signer):
    return number(signer, 2) + SECRETS[signer].sign(b"NWVT" + what)


def certificate(what, signers):
    return bytes([2]) + what + number(len(signers), 2) + b"".join(seal(what, signer) for signer in signers)


def quickstart():
    """The messages of two rounds: each block, and its certificate by three members. The last block has no certificate."""
    values, before = [], []
    for round_ in range(2):
        blocks = []
        for author in MEMBERS:
            transactions = [b"transfer %d from member %d" % (10 * round_ + 1, author)]
            digest, message = signed_block(round_, author, before, transactions)
            values.append(("message", message))
            what = subject(digest, round_, author)
            if (round_, author) == (0, 0):
                votes = [("vote", bytes([3]) + what + seal(what, signer)) for signer in (0, 1, 3)]
            if (round_, author) != (1, 3):
                signers = [member for member in MEMBERS if member != (round_ + author) % 4]
                values.append(("message", certificate(what, signers)))
            blocks.append((author, digest))
        before = blocks
    return values + votes


def validator():
    """The blocks of all rounds, and the votes that the members may sign."""
    values, votes, before, draw = [], [], [], Pcg32(7, 0)
    for round_ in ROUNDS:
        blocks = []
        for author in MEMBERS:
            left_out = draw.word() % 6
            parents = [parent for parent in before if parent[0] != left_out]
            digest, message = signed_block(round_, author, parents, [bytes([0])])
            values.append(("block", message))
            votes += [(round_, author, digest, signer) for signer in MEMBERS]
            blocks.append((author, digest))
            if (round_, author) == FORGED:
                values.append(("forged", message[:-1] + bytes([message[-1] ^ 1])))
            if (round_, author) == TWIN:
                digest, message = signed_block(round_, author, parents, [bytes([1])])
                values.append(("twin", message))
                votes += [(round_, author, digest, signer) for signer in MEMBERS]
        before = blocks
    return values + [signed(*vote) for vote in votes]


def signed(round_, author, digest, signer):
    text = b"NWVT" + subject(digest, round_, author)
    return "signed", number(signer, 2) + text + SECRETS[signer].sign(text)


def corpus():
    keys = [secret.public_key().public_bytes(Encoding.Raw, PublicFormat.Raw) for secret in SECRETS]
    values = [("key", key) for key in keys] + quickstart() + validator()
    return "".join(f"{kind} {value.hex()}\n" for kind, value in values)


def main():
    path = os.path.join(os.path.dirname(os.path.abspath(__file__)), "corpus.txt")
    if sys.argv[1:] == ["--check"]:
        with open(path) as file:
            sys.exit(0 if file.read() == corpus() else "corpus.txt differs from what make.py makes")
    with open(path, "w") as file:
        file.write(corpus())


if __name__ == "__main__":
    main()
