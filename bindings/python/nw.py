"""The verified block store of a Narwhal validator, for trials and tests in a Python shell.

It is a thin ctypes layer over the C interface (bindings/c/nw.h). For a validator use the Rust crate or C. Build the shared object first:

    bindings/python/make && cd bindings/python && python3           # make writes bindings/out/libnw.so
    >>> from nw import Committee, Store, HERE
    >>> lines = [line.split() for line in open(f"{HERE}/../rust/examples/data/corpus.txt")]
    >>> block, certificate = [value for kind, value in lines if kind == "message"][:2]
    >>> committee = Committee([(value, 1) for kind, value in lines if kind == "key"])
    >>> store, checked = Store(committee), committee.check(block)
    >>> store.take(checked), store.take(committee.check(certificate))
    ('STORED_VOTE', 'CERTIFIED')
    >>> [block.subject == checked.subject for block in store.causal(checked.subject[2])]
    [True]

Keys, digests and messages are bytes-like objects or strings of hex digits; a subject has its digest in hex. A wrong length or a number out of
range raises ValueError. A refused call raises NwError with the name of its code in nw.h.

A Store has one session. Threads may share it: calls never overlap, because each call of the library holds the interpreter's lock. So this
module does not load in an interpreter without that lock. Do not use it in the child of a fork (`os.fork`, `multiprocessing` with "fork").
"""
import ctypes
import os
import re
import sys
from ctypes import Structure, byref, c_bool, c_int32, c_size_t, c_uint8, c_uint16, c_uint32, c_uint64, c_void_p

HERE = os.path.dirname(os.path.abspath(__file__))
PATH = os.environ.get("NW_LIBRARY", os.path.normpath(f"{HERE}/../out/libnw.so"))
if not getattr(sys, "_is_gil_enabled", lambda: True)():
    raise ImportError("nw.py needs the lock of the interpreter: calls on one handle of the library must not overlap")
try:
    # CDLL releases the interpreter's lock in each call. Then two threads can use one handle at once, which the library does not allow.
    LIBRARY = ctypes.PyDLL(PATH)
    _ = LIBRARY.nw_interface_7  # Only a library with the functions, structs and codes of this module has it.
except (OSError, AttributeError) as why:
    raise ImportError(f"{PATH} cannot be loaded: run bindings/python/make, or set NW_LIBRARY to its path") from why


def names(what):
    """The names of the codes in the enum of nw.h that follows this comment."""
    with open(f"{HERE}/../c/nw.h") as file:
        body = re.search(rf"/\* {re.escape(what)} \*/\nenum {{(.*?)\n}};", file.read(), re.S)[1]
    return {int(number): name for name, number in re.findall(r"\bNW_(\w+) = (\d+),", body)}


CODES, KINDS, REPLIES, CALLS = (names(what) for what in ("What the functions return.", "The kinds of checked texts.", "The kinds of replies.", "The kinds of calls."))


def record(name, **fields):
    return type(name, (Structure,), {"_fields_": list(fields.items())})


Digest = record("Digest", bytes=c_uint8 * 32)
Member = record("Member", key=c_uint8 * 32, weight=c_uint32)
Limits = record("Limits", blocks=c_uint32, events=c_uint32, window=c_uint32, sessions=c_uint32)
Subject = record("Subject", digest=Digest, round=c_uint64, author=c_uint16)
Told = record("Told", kind=c_int32, number=c_uint64, digest=Digest)
Look = record("Look", garbage_round=c_uint64, newest_round=c_uint64, missing=c_size_t, first=Digest, certified=Digest, has_first=c_bool, has_certified=c_bool, stands=c_bool, complete=c_bool)
AuthorLook = record("AuthorLook", author=c_uint16, look=Look)
Event = record("Event", session=c_uint16, number=c_uint32, call=Told, reply=Told)
Message = record("Message", kind=c_int32, signer=c_uint16, subject=Subject)
Status = record("Status", garbage_round=c_uint64, blocks=c_uint64, certificates=c_uint64, complete=c_uint64, wanted=c_uint64)


class NwError(Exception):
    """A call returned a code other than NW_DONE. The text is the code's name in nw.h."""


def call(name, *arguments):
    code = getattr(LIBRARY, f"nw_{name}")(*arguments)
    if code:
        raise NwError(CODES[code])


def text(name, *arguments):
    """The bytes that a function writes into a buffer. The first call asks for the size."""
    needed = c_size_t()
    getattr(LIBRARY, f"nw_{name}")(*arguments, None, c_size_t(0), byref(needed))
    buffer = (c_uint8 * needed.value)()
    call(name, *arguments, buffer, needed, byref(needed))
    return bytes(buffer)


def octets(value, length=None):
    """The bytes of a bytes-like object or of a string of hex digits, as a ctypes array. A wrong length raises ValueError."""
    given = bytes.fromhex(value) if isinstance(value, str) else bytes(memoryview(value))
    if length not in (None, len(given)):
        raise ValueError(f"{len(given)} bytes were given: {length} are needed")
    return (c_uint8 * len(given))(*given)


def number(value, kind):
    """The number as an unsigned ctypes integer. A number out of range raises ValueError."""
    if not 0 <= value < 1 << 8 * ctypes.sizeof(kind):
        raise ValueError(f"{value} is outside the range of {kind.__name__[2:]}")
    return kind(value)


class Handle:
    def __init__(self, *made_by):
        self.ref = byref(c_void_p())
        if made_by:
            call(*made_by, self.ref)

    def read(self, name, kind, *arguments):
        out = kind()
        call(name, self.ref, *arguments, byref(out))
        return out

    def __del__(self):
        if hasattr(self, "ref"):
            LIBRARY.nw_free(self.ref)


def events(answer):
    """The events of an answer's history: session, number, call and reply."""
    found = (answer.read("answer_event", Event, c_size_t(index)) for index in range(answer.read("answer_events", c_size_t).value))
    return [(it.session, it.number, CALLS[it.call.kind], REPLIES[it.reply.kind]) for it in found]


def place(subject):
    """The round, the author and the digest in hex."""
    return subject.round, subject.author, bytes(subject.digest.bytes).hex()


class Committee(Handle):
    """A committee. Its members are pairs of a key and a weight."""

    def __init__(self, members):
        members = [Member(octets(key, 32), number(weight, c_uint32)) for key, weight in members]
        super().__init__("committee_new", (Member * len(members))(*members), c_size_t(len(members)))

    def check(self, message):
        message = octets(message)
        return Checked("check", self.ref, message, c_size_t(len(message)))


class Checked(Handle):
    """The result of a message's check. `kind` is BLOCK, CERTIFICATE, VOTE, or the rule that the message breaks."""

    kind = property(lambda self: KINDS[self.read("checked_kind", Message).kind])
    subject = property(lambda self: place(self.read("checked_kind", Message).subject))


class Block(Handle):
    subject = property(lambda self: place(self.read("block_subject", Subject)))
    body = property(lambda self: text("block_body", self.ref))


def fields(look):
    """The fields of a look, as a dictionary. A digest that is not there is None."""
    digests = {name: bytes(getattr(look, name).bytes).hex() if getattr(look, f"has_{name}") else None for name in ("first", "certified")}
    numbers = {name: getattr(look, name) for name in ("garbage_round", "newest_round", "missing")}
    return {**numbers, **digests, "stands": look.stands, "complete": look.complete}


class Store(Handle):
    """A store with one session. Each call returns the name of its reply, or the reply's content."""

    def __init__(self, committee, blocks=65_536, events=65_536, window=4_096):
        limits = (number(limit, c_uint32) for limit in (blocks, events, window, 1))
        super().__init__("store_new", committee.ref, byref(Limits(*limits)))
        self.session, self.answer = Handle("store_session", self.ref), Handle("answer_new")

    def make(self, name, *arguments):
        """Makes the call. Returns its answer and the name of its reply."""
        answer = Handle("answer_new")
        call(f"session_{name}", self.session.ref, *arguments, answer.ref)
        self.answer = answer
        return answer, REPLIES[answer.read("answer_reply", Told).kind]

    def take(self, checked):
        """Writes a checked block, or certifies with a checked certificate."""
        return self.make("hand_in", checked.ref)[1]

    def read_block(self, digest):
        answer, reply = self.make("read", byref(Digest(octets(digest, 32))))
        return Block("answer_block", answer.ref) if reply == "FOUND" else None

    def causal(self, digest):
        """The block and its certified ancestors in order, or the name of the reply that says why there is no list."""
        ticket, reply = self.make("open", byref(Digest(octets(digest, 32))))
        if reply != "READY":
            return reply
        walk = Handle("ticket_walk", ticket.ref)
        return [Block("list_block", walk.ref, c_size_t(index)) for index in range(walk.read("list_len", c_size_t).value)]

    def collect(self, round):
        return self.make("collect", number(round, c_uint64))[1]

    def missing(self, most=1_024):
        answer, _ = self.make("missing", number(most, c_uint16))
        count = answer.read("answer_reply", Told).number
        return [place(answer.read("answer_missing", Subject, c_size_t(index))) for index in range(count)]

    def status(self):
        answer, _ = self.make("status")
        status = answer.read("answer_status", Status)
        return {name: getattr(status, name) for name, _ in Status._fields_}

    def look(self, round, author):
        """What the store has for the round and author. This is not a call."""
        return fields(self.session.read("session_look", Look, number(round, c_uint64), number(author, c_uint16)))

    def look_round(self, round):
        """A look for each author of the round that has a first or a certified digest. This is not a call."""
        looks, count = (AuthorLook * 100)(), c_size_t()  # A committee has at most 100 members.
        call("session_look_round", self.session.ref, number(round, c_uint64), looks, c_size_t(len(looks)), byref(count))
        return {each.author: fields(each.look) for each in looks[: count.value]}

    def restart(self):
        """Empties the history. Blocks, certificates and votes stay. Returns the events of the ended run, as `history` does."""
        last = Handle("answer_new")
        call("session_restart", self.session.ref, last.ref)
        return events(last)

    def history(self):
        """The events that explain the last answer: session, number, call and reply."""
        return events(self.answer)
