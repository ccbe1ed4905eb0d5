#!/usr/bin/env python3
"""Makes the signed messages for the simulator and the benchmark of the crate. OpenSSL signs them (python3-cryptography).

    make.py                         writes corpus.bin beside this file
    make.py --check                 exits with 1 if this script would write another corpus.bin
    make.py --load N ROUNDS COUNT FILE    writes the messages of N members for the benchmark, COUNT transactions in a block

The output depends only on SEED. A file is a list of records: the kind (1 byte), the length (4 bytes, highest byte first), and
that many bytes. docs/FORMATS.md describes the messages.

    M   a committee: the keys of its members, 32 bytes each. The records up to the next M belong to it
    B   a block: its digest (32 bytes) and its message
    C   the message of a certificate
    Q   the message of a certificate that only a faulty quorum signs: for a second block of a slot, or with a wrong slot
    X   a text that is refused: the code of the fault in nw.h (1 byte), the signer that the fault names or 0 (2 bytes), the text
"""
import hashlib
import os
import sys

from cryptography.hazmat.primitives.asymmetric.ed25519 import Ed25519PrivateKey
from cryptography.hazmat.primitives.serialization import Encoding, PublicFormat

SEED = b"narwhal-store corpus 1"
ROUNDS = 40
HERE = os.path.join(os.path.dirname(os.path.abspath(__file__)), "corpus.bin")


class Draw:
    """Random numbers that stay the same in every version of Python."""

    def __init__(self, seed):
        self.seed, self.count = seed, 0

    def below(self, n):
        self.count += 1
        digest = hashlib.sha256(self.seed + self.count.to_bytes(8, "big")).digest()
        return int.from_bytes(digest[:8], "big") % n

    def chance(self, percent):
        return self.below(100) < percent

    def some(self, items, count):
        """Returns so many of the items, in order."""
        left = list(range(len(items)))
        for _ in range(len(items) - count):
            del left[self.below(len(left))]
        return [items[i] for i in left]


def number(value, size):
    return value.to_bytes(size, "big")


class Block:
    """A block's fields, its body and its digest."""

    def __init__(self, author, round_, parents=(), transactions=()):
        self.author, self.round, self.parents, self.transactions = author, round_, list(parents), list(transactions)
        self.head = b"\1" + number(author, 2) + number(round_, 6)
        self.links = [number(a, 2) + digest for a, digest in self.parents]
        self.words = [number(len(word), 4) + word for word in self.transactions]
        self.body = (self.head + number(len(self.links), 2) + b"".join(self.links)
                     + number(len(self.words), 2) + b"".join(self.words))
        self.digest = hashlib.sha256(self.body).digest()
        self.subject = self.digest + number(round_, 6) + number(author, 2)

    def link(self):
        return self.author, self.digest


class Members:
    """A committee of members of weight 1, with their secret keys."""

    def __init__(self, size, name=b""):
        self.size, self.quorum = size, size * 2 // 3 + 1
        seeds = [hashlib.sha256(SEED + name + number(size, 2) + number(i, 2)).digest() for i in range(size)]
        self.secrets = [Ed25519PrivateKey.from_private_bytes(seed) for seed in seeds]
        self.keys = b"".join(s.public_key().public_bytes(Encoding.Raw, PublicFormat.Raw) for s in self.secrets)

    def message(self, block, signer=None):
        signer = block.author if signer is None else signer
        return b"\1" + block.body + self.secrets[signer].sign(b"NWBK" + block.digest)

    def seal(self, subject, signer):
        return number(signer, 2) + self.secrets[signer].sign(b"NWVT" + subject)

    def certificate(self, subject, signers):
        return b"\2" + subject + number(len(signers), 2) + b"".join(self.seal(subject, i) for i in signers)

    def vote(self, subject, signer):
        return b"\3" + subject + self.seal(subject, signer)


class Records:
    """The records of a file."""

    def __init__(self):
        self.parts = []

    def add(self, kind, data):
        self.parts.append(kind.encode() + number(len(data), 4) + data)

    def refused(self, fault, text, signer=0):
        self.add("X", number(fault, 1) + number(signer, 2) + text)

    def bytes(self):
        return b"".join(self.parts)


def flipped(text, at, bit=0):
    return text[:at] + bytes([text[at] ^ 1 << bit]) + text[at + 1:]


def words(draw):
    return [b"tx%d" % draw.below(10_000) for _ in range(draw.below(3))]


def signers(draw, members):
    """Returns the members that sign a certificate: mostly as few as reach the quorum, sometimes all, sometimes in between."""
    kind = draw.below(100)
    least, size = members.quorum, members.size
    count = least if kind < 70 else size if kind < 85 else least + draw.below(size - least + 1)
    return draw.some(range(size), count)


def dag(records, draw, members):
    """Adds the blocks and certificates of ROUNDS rounds, and returns the blocks.

    Some members are silent, some blocks get no certificate, and the faulty members sometimes make two blocks for a slot.
    """
    size, quorum = members.size, members.quorum
    faulty = range(size - (size - 1) // 3, size)
    doubly = {ROUNDS // 2, ROUNDS * 3 // 4}     # rounds in which a faulty quorum certifies both blocks of a slot
    before, twins, every = [], [], []
    for round_ in range(ROUNDS):
        silent = draw.below(size) if draw.chance(30) else size
        certified = []
        for author in range(size):
            if author == silent and round_ not in doubly:
                continue
            links = before
            if not draw.chance(25):
                links = draw.some(before, min(len(before), quorum + draw.below(2)))
            if twins and author == 0:           # one block references the second block of a slot
                links = [twins[0] if link[0] == twins[0][0] else link for link in links]
            blocks = [Block(author, round_, links, words(draw) + [b"one"])]
            both = round_ in doubly and author == size - 1
            if both or author in faulty and draw.chance(12):
                blocks.append(Block(author, round_, draw.some(before, quorum) if before else [], words(draw) + [b"two"]))
            chosen = draw.below(len(blocks))
            for i, block in enumerate(blocks):
                records.add("B", block.digest + members.message(block))
                every.append(block)
                if i != chosen and both:
                    records.add("Q", members.certificate(block.subject, signers(draw, members)))
                    twins = [block.link()]
            if not both and len(certified) >= quorum and draw.chance(6):
                continue                        # no certificate
            for _ in range(2 if draw.chance(12) else 1):
                records.add("C", members.certificate(blocks[chosen].subject, signers(draw, members)))
            certified.append(blocks[chosen].link())
        twins = twins if round_ in doubly else []
        before = certified
    return every


def oddities(records, draw, members, every):
    """Adds well-formed messages that only faulty members make."""
    least = list(range(members.quorum))

    def certified(author, round_, links, word):
        block = Block(author, round_, links, [word])
        records.add("B", block.digest + members.message(block))
        records.add("C", members.certificate(block.subject, least))

    at = {(block.round, block.author): block for block in every}
    # blocks of members that were silent, so that no other block of the slot is certified
    silent = [(r, a) for r in range(3, ROUNDS) for a in range(members.size) if (r, a) not in at][:6]
    for (round_, author), kind in zip(silent, 2 * ("another author", "another round", "nobody")):
        before = {"another round": 2}.get(kind, 1)
        links = [block.link() for (r, _), block in sorted(at.items()) if r == round_ - before]
        digests = {"another author": links[0][1], "nobody": hashlib.sha256(b"nobody").digest()}
        certified(author, round_, [(a, digests.get(kind, digest)) for a, digest in links], b"of " + kind.encode())
    certified(0, 4_000_000, [(a, bytes(32)) for a in least], b"far")
    for round_, author, other_round, other_author in ((6, 0, 6, 1), (13, 1, 14, 1), (22, 0, 21, 0), (33, 2, 33, 3)):
        block = at.get((round_, author)) or at[round_, 3]
        wrong = block.digest + number(other_round, 6) + number(other_author, 2)
        records.add("Q", members.certificate(wrong, least))


def faults(records, draw, members, every):
    """Adds texts that a check refuses, with their faults."""
    size, quorum = members.size, members.quorum
    late = [block for block in every if block.round > 0]
    for _ in range(2):
        block = late[draw.below(len(late))]
        message, subject = members.message(block), block.subject
        certificate = members.certificate(subject, list(range(quorum)))
        vote = members.vote(subject, 0)
        for text in (message, certificate, vote):
            records.refused(10, text[:draw.below(len(text))])
            records.refused(11, text + b"\0")
        records.refused(12, bytes([4 + draw.below(252)]) + message[1:])
        records.refused(13, b"\1" + bytes([2 + draw.below(254)]) + message[2:])
        records.refused(14, message[:10] + number(101, 2) + message[12:])
        records.refused(15, b"\1" + block.head + number(quorum, 2) + block.links[1] + block.links[0])
        behind = 12 + 34 * len(block.links)
        records.refused(16, message[:behind] + number(1025, 2))
        records.refused(17, message[:behind] + number(1, 2) + number(65_537, 4))
        records.refused(19, certificate[:41] + number(101, 2) + certificate[43:])
        records.refused(20, certificate[:43] + certificate[109:175] + certificate[43:109])
        # the rules of blocks
        records.refused(30, members.message(Block(size + draw.below(9), block.round, block.parents), 0))
        records.refused(31, members.message(Block(0, block.round, block.parents[:-1] + [(size, bytes(32))])))
        records.refused(32, members.message(Block(0, 0, block.parents)))
        records.refused(33, members.message(Block(0, block.round, block.parents[:quorum - 1])))
        records.refused(34, flipped(message, len(message) - 64 + draw.below(64), draw.below(8)))
        records.refused(34, flipped(message, behind + 6, draw.below(8)))    # a byte of the first transaction
        records.refused(34, members.message(block, (block.author + 1) % size))
        # the rules of certificates
        records.refused(40, members.certificate(block.digest + number(block.round, 6) + number(size, 2), list(range(quorum))))
        records.refused(41, certificate[:-66] + number(size, 2) + certificate[-64:])
        records.refused(42, members.certificate(subject, list(range(quorum - 1))))
        wrong = draw.below(quorum)
        records.refused(43, flipped(certificate, 45 + 66 * wrong + draw.below(64), draw.below(8)), wrong)
        everyone = members.certificate(subject, list(range(size)))
        records.refused(43, flipped(everyone, len(everyone) - 1 - draw.below(64), draw.below(8)), size - 1)
        records.refused(43, flipped(certificate, 1 + draw.below(32), draw.below(8)))    # another digest
    records.refused(10, b"")
    # another committee's messages
    strangers = Members(size, b"strangers")
    for block in every[:2] + late[-2:]:
        records.refused(34, strangers.message(block))
        records.refused(43, strangers.certificate(block.subject, list(range(quorum))))


def corpus():
    records = Records()
    for size in (4, 7):
        draw, members = Draw(SEED + number(size, 2)), Members(size)
        records.add("M", members.keys)
        every = dag(records, draw, members)
        oddities(records, draw, members, every)
        faults(records, draw, members, every)
    return records.bytes()


def load(size, rounds, count):
    """Returns the file of the benchmark: each member makes a block in each round, which as few as reach the quorum certify."""
    records, draw, members, before = Records(), Draw(SEED + b"load"), Members(size), []
    records.add("M", members.keys)
    for round_ in range(rounds):
        links, now = before, []
        for author in range(size):
            links = draw.some(before, members.quorum) if before else []
            transactions = [number(draw.below(2**32), 4) * 128 for _ in range(count)]
            block = Block(author, round_, links, transactions)
            records.add("B", block.digest + members.message(block))
            records.add("C", members.certificate(block.subject, draw.some(range(size), members.quorum)))
            now.append(block.link())
        before = now
    return records.bytes()


def main(arguments):
    if len(arguments) == 5 and arguments[0] == "--load":
        with open(arguments[4], "wb") as file:
            file.write(load(*map(int, arguments[1:4])))
    elif arguments == ["--check"]:
        with open(HERE, "rb") as file:
            return 0 if file.read() == corpus() else 1
    elif not arguments:
        with open(HERE, "wb") as file:
            file.write(corpus())
    else:
        sys.stderr.write(__doc__)
        return 2
    return 0


if __name__ == "__main__":
    sys.exit(main(sys.argv[1:]))
