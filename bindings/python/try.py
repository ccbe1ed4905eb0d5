"""Tests nw.py, with the messages of bindings/c/example.c and with signatures of its own. The exit status is 1 if a result is not the expected
one. It needs bindings/out/libnw.so, which make builds, and a C compiler."""
import doctest
import hashlib
import os
import re
import shutil
import subprocess
import sys
import tempfile
from concurrent.futures import ThreadPoolExecutor

import nw
from nw import Committee, NwError, Store, HERE

with open(f"{HERE}/../c/example.c") as file:
    KEYS, BLOCK, CERTIFICATE = (bytes.fromhex("".join(re.findall(r'"(\w+)"', part))) for part in re.findall(r"static const char \w+\[\] =(.*?);", file.read(), re.S))

# The members of bindings/rust/tests/lab, which describes its signatures: the secret of member i is i + 1, and each nonce is 1.
with open(f"{HERE}/../rust/tests/lab/keys.txt") as file:
    MEMBERS = [bytes.fromhex(line) for line in file]
ORDER = 2**252 + 27742317777372353535851937790883648493


def sign(member, text):
    k = int.from_bytes(hashlib.sha512(MEMBERS[0] + MEMBERS[member] + text).digest(), "little")
    return MEMBERS[0] + ((1 + k * (member + 1)) % ORDER).to_bytes(32, "little")


def body_of(author, transactions, round=0, parents=()):
    """The body of a block (docs/FORMATS.md)."""
    references = b"".join(parent.to_bytes(2, "big") + digest for parent, digest in parents)
    texts = b"".join(len(text).to_bytes(4, "big") + text for text in transactions)
    head = bytes([1]) + author.to_bytes(2, "big") + round.to_bytes(6, "big") + len(parents).to_bytes(2, "big")
    return head + references + len(transactions).to_bytes(2, "big") + texts


def message_of(author, body):
    return bytes([1]) + body + sign(author, b"NWBK" + hashlib.sha256(body).digest())


def certificate_of(subject, signers):
    round, author, digest = subject
    text = bytes.fromhex(digest) + round.to_bytes(6, "big") + author.to_bytes(2, "big")
    votes = b"".join(signer.to_bytes(2, "big") + sign(signer, b"NWVT" + text) for signer in signers)
    return bytes([2]) + text + len(signers).to_bytes(2, "big") + votes


def refusal(kind, function, argument):
    """The text of the error that the function raises."""
    try:
        function(argument)
    except kind as why:
        return str(why)
    raise AssertionError(f"no {kind.__name__}")


def replies_to_two_threads(store, checked, other):
    """Each of two threads hands its message to the store again and again. Returns the names of the replies to each."""

    def work(message):
        return {store.take(message) for _ in range(10_000)}

    before = sys.getswitchinterval()
    sys.setswitchinterval(1e-6)
    with ThreadPoolExecutor(2) as threads:
        replies = [threads.submit(work, message) for message in (checked, other)]
    sys.setswitchinterval(before)
    return [each.result() for each in replies]


def resident():
    """The bytes of this process that are in memory."""
    with open("/proc/self/statm") as file:
        return 4096 * int(file.read().split()[1])


def check_sizes():
    """Bodies of all sizes come back whole, and each author of a full committee has its look."""
    committee = Committee([(key, 1) for key in MEMBERS])
    store, digests = Store(committee), {}
    sizes = [0, 1, 4_079, 4_080, 4_096, 65_536, 65_537, 1_000_000]
    for author in range(len(MEMBERS)):
        size = sizes[author % len(sizes)]
        body = body_of(author, [bytes([author]) * min(65_536, size - at) for at in range(0, size, 65_536)])
        checked = committee.check(message_of(author, body))
        assert checked.subject == (0, author, hashlib.sha256(body).hexdigest()), checked.kind
        assert store.take(checked) == "STORED_VOTE" and store.read_block(checked.subject[2]).body == body
        digests[author] = checked.subject[2]
    looks = store.look_round(0)
    assert {author: look["first"] for author, look in looks.items()} == digests and len(looks) == 100
    assert store.status() == {"garbage_round": 0, "blocks": 100, "certificates": 0, "complete": 0, "wanted": 0}


def check_ancestors():
    """A block with four parents, under a committee with weights: what is missing, looks, and the list of a causal read."""
    committee = Committee(list(zip(MEMBERS, (3, 1, 1, 1))))
    store, bodies = Store(committee), [body_of(author, [bytes([author])]) for author in range(4)]
    digests = [hashlib.sha256(body) for body in bodies]
    subjects = [(0, author, digest.hexdigest()) for author, digest in enumerate(digests)]
    bodies.append(body_of(2, [b"leader"], 1, [(author, digest.digest()) for author, digest in enumerate(digests)]))
    leader = (1, 2, hashlib.sha256(bodies[4]).hexdigest())
    assert store.take(committee.check(message_of(2, bodies[4]))) == "STORED_VOTE"
    assert store.missing() == subjects and store.missing(2) == subjects[:2] and store.missing(0) == []
    assert store.look(1, 2)["first"] == leader[2] and store.look(2, 1)["first"] is None
    assert committee.check(certificate_of(leader, (1, 2, 3))).kind == "CERT_FEW_VOTES"
    assert store.take(committee.check(certificate_of(leader, (0, 1, 2)))) == "CERTIFIED" and store.causal(leader[2]) == "INCOMPLETE"
    look = {"garbage_round": 0, "newest_round": 1, "first": leader[2], "missing": 4, "certified": leader[2], "stands": True, "complete": False}
    assert store.look(1, 2) == look
    for author, subject in reversed(list(enumerate(subjects))):
        assert store.take(committee.check(message_of(author, bodies[author]))) == "STORED_VOTE"
        assert store.take(committee.check(certificate_of(subject, (0, 1, 3)))) == "CERTIFIED"
    found = store.causal(leader[2])
    assert [block.subject for block in found] == [*subjects, leader] and [block.body for block in found] == bodies
    assert store.look(1, 2)["complete"] and store.missing() == []
    assert store.status() == {"garbage_round": 0, "blocks": 5, "certificates": 5, "complete": 5, "wanted": 0}


def check_memory():
    """Nothing stays of values that are dropped."""
    committee = Committee([(key, 1) for key in MEMBERS[:4]])
    body = body_of(2, [bytes(65_000)] * 15)
    message, before = message_of(2, body), resident()
    for _ in range(20):
        store, checked = Store(committee, events=300), committee.check(message)
        assert store.take(checked) == "STORED_VOTE" and store.read_block(checked.subject[2]).body == body
        for _ in range(250):
            store.take(checked)
        store.restart()
    grown = resident() - before
    assert grown < 10 * len(body), f"{grown} bytes stay"


def check_refusals():
    """A refused call leaves the history of the last answer."""
    committee = Committee([(KEYS[at : at + 32], 1) for at in range(0, len(KEYS), 32)])
    other, block = Committee([(MEMBERS[0], 1)]), committee.check(BLOCK)
    store = Store(committee, events=2)
    assert store.take(block) == "STORED_VOTE"
    before = store.history()
    alien = other.check(message_of(0, body_of(0, [])))
    for function, argument, why in ((store.take, committee.check(b""), "OTHER_KIND"), (store.take, alien, "OTHER_COMMITTEE"), (store.collect, 1 << 48, "BAD_ROUND")):
        assert refusal(NwError, function, argument) == why and store.history() == before
    assert store.missing() == [] and len(store.history()) == 2
    assert refusal(NwError, store.missing, 1) == "HISTORY_FULL" and len(store.history()) == 2


def loaded(library, before=""):
    """What a fresh interpreter says that loads nw.py with this library, after these lines."""
    program = f"{before}\nimport nw\nprint(nw.PATH, nw.Committee([(bytes(32), 1)]).check(b'').kind)"
    words = [sys.executable, "-c", program]
    ran = subprocess.run(words, cwd=HERE, env={**os.environ, "NW_LIBRARY": library}, stdout=subprocess.PIPE, stderr=subprocess.STDOUT, text=True)
    return ran.stdout.strip().splitlines()[-1]


def made(room, **variables):
    """The shared object that make builds in a copy of this folder."""
    subprocess.run([f"{room}/python/make"], env={**os.environ, **variables}, stderr=subprocess.DEVNULL, check=True)
    with open(f"{room}/out/libnw.so", "rb") as file:
        return file.read()


def check_library(room):
    """nw.py loads the library that NW_LIBRARY names, if it has the interface, and make links the archive in NW_LIB_DIR."""
    chosen, machine = f"{room}/chosen", f"{os.uname().machine}-linux"
    shutil.copytree(f"{HERE}/../c", f"{room}/c")
    shutil.copytree(HERE, f"{room}/python")
    shutil.copytree(f"{HERE}/../rust/prebuilt/{machine}", f"{room}/rust/prebuilt/{machine}")
    os.makedirs(chosen)
    with open(f"{room}/rust/prebuilt/{machine}/libnw.a", "rb") as file, open(f"{chosen}/libnw_c.a", "wb") as other:
        other.write(file.read().replace(b"nw_interface_7", b"nw_interface_0"))
    own = dict(os.environ)
    os.environ.pop("NW_LIB_DIR", None)
    for name, wanted in (("good", {}), ("bad", {"NW_LIB_DIR": chosen})):
        library = made(room, **wanted)
        assert (b"nw_interface_7" in library, b"nw_interface_0" in library) == (not wanted, bool(wanted)), name
        shutil.copy(f"{room}/out/libnw.so", f"{room}/{name}.so")
    os.environ.update(own)
    assert loaded(f"{room}/good.so") == f"{room}/good.so TEXT_SHORT"
    assert loaded(f"{room}/bad.so").startswith(f"ImportError: {room}/bad.so cannot be loaded")
    assert loaded(f"{room}/missing.so").startswith("ImportError")
    free = "import sys\nsys._is_gil_enabled = lambda: False"
    assert loaded(f"{room}/good.so", free).startswith("ImportError: nw.py needs the lock")


def main():
    check_sizes()
    check_ancestors()
    check_memory()
    check_refusals()
    with tempfile.TemporaryDirectory() as room:
        check_library(room)
    committee = Committee([(KEYS[at : at + 32], 1) for at in range(0, len(KEYS), 32)])
    store = Store(committee)
    block, certificate, broken = committee.check(BLOCK), committee.check(CERTIFICATE), committee.check(BLOCK[:-1])
    digest = block.subject[2]
    assert (block.kind, certificate.kind, broken.kind) == ("BLOCK", "CERTIFICATE", "TEXT_SHORT")
    assert store.take(block) == "STORED_VOTE" and store.take(block) == "HELD"
    assert store.causal(digest) == "UNCERTIFIED"
    look = {"garbage_round": 0, "newest_round": 0, "missing": 0, "first": digest, "certified": None, "stands": False, "complete": False}
    assert store.look(0, 0) == look and store.look_round(0) == {0: look} and store.look_round(1) == {}
    assert store.take(certificate) == "CERTIFIED"
    assert store.look(0, 0) == {**look, "certified": digest, "stands": True, "complete": True}
    assert [each.subject for each in store.causal(digest)] == [block.subject] == [(0, 0, digest)]
    assert store.read_block(digest).body == store.read_block(bytearray.fromhex(digest)).body == BLOCK[1:-64]
    assert store.missing() == [] and store.status()["complete"] == 1
    assert store.collect(1) == "RAISED" and store.read_block(digest) is None
    assert store.history()[-1] == (0, 11, "CALL_READ", "UNKNOWN")
    assert store.restart() == store.history() and len(store.history()) == 11
    assert store.restart() == [] and len(store.history()) == 11
    assert store.take(block) == "COLLECTED" and store.history() == [(0, 1, "CALL_WRITE", "COLLECTED")]
    assert refusal(NwError, store.take, broken) == "OTHER_KIND"
    for function, argument in ((store.causal, digest[2:]), (store.causal, b""), (store.collect, -1), (store.missing, 65_536), (Committee, [(KEYS, 1)]), (Committee, [(KEYS[:32], 1 << 32)])):
        refusal(ValueError, function, argument)
    shared = Store(committee)
    assert replies_to_two_threads(shared, block, certificate) == [{"STORED_VOTE", "HELD"}, {"CERTIFIED", "ALREADY"}]
    assert shared.status()["complete"] == 1 and len(shared.history()) == 20_001
    small = Store(committee, events=1)
    assert small.take(block) == "STORED_VOTE" and refusal(NwError, small.take, certificate) == "HISTORY_FULL"
    assert len(small.restart()) == 1 and small.take(certificate) == "CERTIFIED" and small.look(0, 0)["complete"]
    assert doctest.testmod(nw).failed == 0
    print("nw.py: all answers are as they should be")


if __name__ == "__main__":
    main()
