"""Reads the names in the sources of a crate: functions with their clauses, laws, types with an invariant, tests and edits."""
import functools
import os
import re

from repository import content, paths

NAME = r"[A-Za-z_]\w*"
BLOCK = re.compile(rf"(?:pub(?:\(\w+\))? )?(?:impl\b(?:<.*?>)? ?(.* for )?|(trait) |struct |enum )({NAME})")
FUNCTION = re.compile(rf'\s*(pub(?:\(\w+\))? )?(?:const )?(?:extern "C" )?fn ({NAME})')
CLAUSE = re.compile(rf"\s*(ensures|requires)\*? ({NAME} )?\{{")
TEST = re.compile(r"\s*#\[test\]")
REMARK = re.compile(r"/\*.*?\*/", re.S)
TYPE = re.compile(rf"^(?:pub(?:\(\w+\))? )?(?:struct|enum) ({NAME})", re.M)
IMPL = re.compile(rf"(?:unsafe )?(?:impl\b(?:<.*?>)? ?(?:({NAME})(?:<.*?>)? for )?|(?:pub(?:\(\w+\))? )?trait )&?({NAME})")
GHOST = re.compile(rf"\s*ghost ({NAME})(:| =)")


class Names:
    """The names of one crate. A function of a type or a trait has its name in front. A clause without a name has the empty name."""

    def __init__(self, folder):
        self.functions, self.public, self.laws, self.types, self.tests = {}, set(), set(), set(), set()
        self.number_of_tests = 0
        self.is_program = bool(paths(f"{folder}/src/main.rt"))
        for path in paths(f"{folder}/src/**/*.r[st]"):
            self.read(content(path))
        for path in paths(f"{folder}/proofs/Send.antt"):
            self.laws.update(re.findall(rf"^ *pub ({NAME}) :", content(path), re.M))
        self.edits, self.planted = files(f"{folder}/must-fail/*.edit") | files(f"{folder}/must-fail-together/*.edit"), files(f"{folder}/planted/*.edit")

    def read(self, text):
        owner, name, is_open, is_test = None, None, False, False
        for line in REMARK.sub(lambda remark: "\n" * remark[0].count("\n"), text).split("\n"):
            if block := BLOCK.match(line):
                owner, is_open = block[3], bool(block[1] or block[2])
            elif line == "}":
                owner = None
            elif line == "{}" and self.functions.get(name):
                self.laws.add(name)
            is_test |= bool(TEST.match(line))
            if found := FUNCTION.match(line):
                name = f"{owner}::{found[2]}" if owner and line.startswith(" ") else found[2]
                (self.tests.add(name) if is_test else self.functions.setdefault(name, set()))
                self.number_of_tests += is_test
                self.public.update({name} if found[1] == "pub " or is_open or found[1] and self.is_program else ())
                is_test = False
            elif (clause := CLAUSE.match(line)) and name in self.functions:
                self.functions[name].add((clause[1], (clause[2] or "").strip()))
            elif ghost := GHOST.match(line):
                self.read_ghost(owner, ghost[1], ghost[2] == ":")

    def read_ghost(self, owner, name, is_law):
        """Reads a law of a trait, an invariant, or a ghost function that an impl of a trait defines."""
        if is_law:
            self.laws.add(f"{owner}::{name}")
        elif name == "invariant":
            self.types.add(owner)
        else:
            self.functions.setdefault(f"{owner}::{name}", set()).add(("ensures", ""))
            self.public.add(f"{owner}::{name}")

    def has_clause(self, name, word="ensures"):
        """Whether a function that callers can name has this clause: FUNCTION.CLAUSE, or FUNCTION for the clause without a name."""
        function, _, clause = name.partition(".")
        return function in self.public and (word, clause) in self.functions.get(function, ())


def files(pattern):
    return {os.path.splitext(os.path.basename(path))[0] for path in paths(pattern)}


@functools.cache
def names_of(crate):
    """The names of a crate below crates, or of a Rust crate, which is given by its path."""
    folder = crate if "/" in crate else f"crates/{crate}"
    return Names(folder)


@functools.cache
def words():
    """All words in sources, specifications and proofs, in crates.txt and docs/picture.script, and in the names of files in their folders."""
    crates, bindings = ("src/**/*.rt", "specs/**/*.antt", "proofs/**/*.antt"), ("c/*.[ch]", "c/rename", "rust/src/**/*.rs", "rust/validator/src/*.rs")
    sources = [*(f"crates/*/{it}" for it in crates), *(f"bindings/{it}" for it in bindings), "crates.txt", "docs/picture.script"]
    texts = [content(path) for source in sources for path in paths(source)] + paths("crates/*/[mpsw]*/**/*") + paths("bindings/*/*")
    return {word for text in texts for word in re.findall(NAME, text)}


@functools.cache
def spans(crate):
    """For each function of the crate, by its path: its file, from the folder of the crate, and its text. The path is the one that
    `rattle check` prints: the modules of a function or of its type, the type and the trait if the function is of one, and its name."""
    files = {path.split("/", 2)[2]: content(path).split("\n") for path in paths(f"crates/{crate}/src/**/*.rt")}
    homes, found = types_of(crate), {}
    for file, lines in files.items():
        owner = None
        for number, line in enumerate(lines):
            if block := IMPL.match(line):
                owner = (*homes.get(block[2], modules_of(file)), block[2] + (block[1] or ""))
            elif line == "}":
                owner = None
            if function := FUNCTION.match(line):
                depth = line[: len(line) - len(line.lstrip())]
                text = "\n".join(lines[number : end_of(lines, number, depth) + 1])
                found["::".join((*(owner if owner and depth else modules_of(file)), function[2]))] = file, text
    return found


@functools.cache
def types_of(crate):
    """For each struct and enum of the crate, the modules that it is in."""
    files = {path.split("/", 2)[2]: content(path) for path in paths(f"crates/{crate}/src/**/*.rt")}
    return {name: modules_of(file) for file, text in files.items() for name in TYPE.findall(text)}


def end_of(lines, number, depth):
    """The last line of the function that begins in this line: a brace in the column of its `fn`, or the end of a declaration."""
    for last in range(number, len(lines)):
        line = lines[last]
        if line.startswith((f"{depth}}}", f"{depth}{{}}")) or last == number and line.endswith(("}", ";")):
            return last
    return number


def modules_of(file):
    """The modules of a source file, from the folder of the crate."""
    modules = file.removeprefix("src/").removesuffix(".rt").split("/")
    return tuple(it for it in modules if it not in ("lib", "main"))
