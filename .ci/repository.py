"""Functions for the commands in this folder: the files of the repository, its crates, its worked scripts, wrong bodies, and how many
there must be of each."""
import functools
import glob
import os
import re
import subprocess

ROOT = os.path.dirname(os.path.dirname(os.path.abspath(__file__)))
# The number of programs or crates that run at once.
AT_ONCE = min(os.cpu_count() or 1, 4)
# The most seconds that one run of a program may take.
SECONDS = 60
SCRIPTS = "crates/nw/scripts"
COUNTS, BROKEN = ".ci/counts", ".ci/broken"


def content(path):
    """The text of a file. Its path starts at the top of the repository."""
    return content_in_bytes(path).decode()


def content_in_bytes(path):
    with open(f"{ROOT}/{path}", "rb") as file:
        return file.read()


def paths(pattern):
    """The sorted paths of the files that match the pattern. Paths and pattern start at the top of the repository."""
    return [os.path.relpath(path, ROOT) for path in sorted(glob.glob(f"{ROOT}/{pattern}", recursive=True))]


def crates():
    """The names of the crates in crates.txt."""
    return re.findall(r"^(\w+)[^:\n]*:", content("crates.txt"), re.M)


@functools.cache
def more_seconds():
    """The flag that gives the tests of a crate five minutes instead of one, or nothing if this kit does not have it. A test may need more
    than the usual minute when others run. Some kits print their usage to standard error."""
    usage = subprocess.run(["rt", "help"], stdin=subprocess.DEVNULL, stdout=subprocess.PIPE, stderr=subprocess.STDOUT, text=True).stdout
    return ["--seconds", "300"] if "--seconds" in usage else []


def tried(folder, flags=()):
    """Runs the tests of the crate in this folder without proofs, with these flags. Returns the exit status and the output."""
    ran = subprocess.run(
        ["rt", "try", "--test", *flags], cwd=folder, stdin=subprocess.DEVNULL, stdout=subprocess.PIPE, stderr=subprocess.STDOUT, text=True
    )
    return ran.returncode, ran.stdout


@functools.cache
def uses():
    """For each crate, the crates and the kit's libraries that it uses, from crates.txt."""
    return {crate: rest.split() for crate, rest in re.findall(r"^(\w+)[^:\n]*:(.*)$", content("crates.txt"), re.M)}


def below(crate):
    """The crates of the repository that this crate uses, directly or not. Each comes after those that it uses."""
    found, used = [], uses()
    for name in used[crate]:
        if name in used:
            found += [it for it in (*below(name), name) if it not in found]
    return found


def recorded(kind):
    """The numbers that .ci/counts has for this kind, by place. Its lines are `KIND PLACE NUMBER`."""
    lines = [line.split() for line in content(COUNTS).splitlines() if not line.startswith("#")]
    return {place: int(number) for named, place, number in lines if named == kind}


def miscounts(kind, counts, only=None):
    """A line for each place whose number of this kind is not the one in .ci/counts. With `only`, it compares only these places."""
    wanted = recorded(kind)
    for place in sorted(wanted.keys() | counts.keys()):
        found, expected = counts.get(place, 0), wanted.get(place, 0)
        if found != expected and (only is None or place in only):
            yield f"{place}: {found} {kind}, and {COUNTS} has {expected}"


def is_static(crate):
    """Whether the crate is a static library for C."""
    return bool(re.search(rf"^{crate} staticlib:", content("crates.txt"), re.M))


def rlib(crate):
    """The folder of the library that `rt ci` or `rt lib` built from the crate."""
    return f"{ROOT}/crates/{crate}/out/rlib"


@functools.cache
def kit():
    """The folder of the toolchain."""
    documents = subprocess.run(["rt", "doc"], stdin=subprocess.DEVNULL, stdout=subprocess.PIPE, check=True, text=True).stdout
    return os.path.dirname(documents.split()[0])


def rattle(command, crate, *more):
    """The words of a command of the compiler for the crate, with the libraries that `rt ci` or `rt lib` built. The command keeps its proofs
    for the next one."""
    libraries = below(crate)
    given = {name: f"{kit()}/rlibs/{name}.rlib" for name in ("std", *uses()[crate]) if name not in libraries}
    given |= {name: f"{rlib(name)}/{name}.rlib" for name in uses()[crate] if name in libraries}
    kind = ["--crate-type", "staticlib"] if is_static(crate) else []
    words = ["--crate-name", crate, "src/lib.rt", *kind, "--incremental", f"{ROOT}/crates/{crate}/out/proved"]
    words += [word for name, path in given.items() for word in ("--extern", f"{name}={path}")]
    words += [word for folder in (f"{kit()}/rlibs", *map(rlib, libraries)) for word in ("-L", f"dependency={folder}")]
    words += ["--antt-project", f"{kit()}/rattle/logic/antt-project.json", "--logic-built", f"{kit()}/logic_built"]
    toolchain = ["--toolchain", f"{kit()}/toolchain"] if command == "build" else []
    return [f"{kit()}/bin/rattle", command, *words, *toolchain, *more]


def program(crate):
    """The path of the program that `rt run` or `rt ci` built from the crate."""
    return f"{ROOT}/crates/{crate}/out/{crate}"


def worked_scripts():
    """For each worked script: its subject, its name, the script, and its expected output."""
    for path in paths(f"{SCRIPTS}/*/*.script"):
        subject, name = path.removesuffix(".script").split("/")[-2:]
        yield subject, name, content_in_bytes(path), content_in_bytes(path.removesuffix("script") + "prints")


def status_of(prints):
    """The expected exit status of a play with this output: 2 after a bad line, 3 if sessions differ, and otherwise 0."""
    last = prints.rpartition(b"\n")[0].rpartition(b"\n")[2]
    if re.fullmatch(rb"line \d+ bad", last):
        return 2
    return 3 if last.startswith(b"differs ") else 0


class Misfit(Exception):
    """A wrong body does not fit its file: an `old` line does not occur exactly once."""


def plant(body, root, kind):
    """Applies the wrong body to the copy of the repository or of a crate at this root. Returns the names in its lines `KIND: NAME`. Raises
    `Misfit` if the body does not fit."""
    named, path, old = set(), "", None
    for line in content(body).splitlines():
        word, _, rest = line.partition(":")
        rest = rest[1:]
        if word == kind:
            named.add(rest)
        elif word == "file":
            path = f"{root}/{rest}"
        elif word == "old":
            old = rest
        elif word == "new" and old is not None:
            replace(path, old, rest)
    return named


def replace(path, old, new):
    with open(path) as file:
        text = file.read()
    if text.count(old) != 1:
        raise Misfit(f"{old.strip()!r} occurs {text.count(old)} times in {os.path.basename(path)}")
    with open(path, "w") as file:
        file.write(text.replace(old, new))
