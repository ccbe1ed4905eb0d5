"""Reads from the output of a check which goals of a function it leaves open, and which clauses they are of."""
import itertools
import re

from repository import content
from sources import CLAUSE, spans, types_of

# An error of a hand proof, with the indented lines that go on with it.
ERROR = r"^\./proofs/{}/\S+: error: (.*\n(?:[ \t].*\n)*)"
# Errors of a proof that uses a name which the wrong body takes away.
GONE = re.compile(r"has no field|is not in scope|has no `|was not admitted")
# The file, the line and the name of a goal that the prover leaves open, and that has no hand proof.
OPEN = re.compile(r"(src/\S+?):(\d+):\d+: .*\bnot proved\b(?:.*\(`([\w-]+)`\))?")
# The clause that a goal at a return is of. A number tells several paths to one return apart.
RETURN = re.compile(r"returns(?:-.*?)??(?:-clause-(\w+?))?(?:-\d+)?")


def open_goals(crate, name, output):
    """The names of the function's open goals that have no hand proof. A name may be empty."""
    if name not in spans(crate):
        return []
    file, text = spans(crate)[name]
    before = content(f"crates/{crate}/{file}").partition(text)[0].split("\n")[:-1]
    attributes = len(list(itertools.takewhile(lambda line: line.lstrip().startswith("#["), reversed(before))))  # A goal may be at one of them.
    first, last = len(before) + 1 - attributes, len(before) + 1 + text.count("\n")
    return [goal for path, line, goal in OPEN.findall(output) if path == file and first <= int(line) <= last]


def hand_proof_errors(name, output):
    """The errors of the function's hand proof that have another reason than a name which the wrong body takes away."""
    folder, _, last = name.replace("::", "/").rpartition("/")
    errors = re.findall(ERROR.format(rf"{re.escape(folder)}/(?:\+[^/]+|{last})"), output, re.M)
    return [it for it in errors if not GONE.search(it)]


def clauses(text):
    """The names of the postconditions of a function with this text. The name of a clause may be empty."""
    lines = text.split("\n")
    depth = lines[0][: len(lines[0]) - len(lines[0].lstrip())]
    head = lines[: lines.index(f"{depth}{{")] if f"{depth}{{" in lines else lines[:1]
    return [(found[2] or "").strip() for line in head if (found := CLAUSE.match(line)) and found[1] == "ensures"]


def broken(crate, name, output):
    """The clauses of the function whose goals the check leaves open."""
    names = clauses(spans(crate)[name][1]) if name in spans(crate) else []
    goals = open_goals(crate, name, output) + [goal for it in hand_proof_errors(name, output) for goal in re.findall(r"^`([\w-]+)`", it)]
    found = {it[1] or (names[0] if len(names) == 1 else None) for goal in goals if (it := RETURN.fullmatch(goal))}
    return found & set(names)


def is_of_trait(crate, name):
    """Whether the function is of a trait or of its impl. Then its path may not be the one that the prover prints."""
    owner = name.rpartition("::")[0].rpartition("::")[2]
    return not owner.islower() and owner not in types_of(crate)


def is_public(crate, name):
    """Whether callers can name the function."""
    return spans(crate)[name][1].lstrip().startswith("pub ") or "::" in name and is_of_trait(crate, name)


def clauses_of(crate):
    """For each function with a body: its postconditions. Laws are left out, since they have no code."""
    found = {name: clauses(text) for name, (_, text) in spans(crate).items() if not text.endswith(("{}", ";"))}
    return {name: names for name, names in found.items() if names}


def dotted(name, clause):
    return f"{name}.{clause}" if clause else name
