"""Follows the links of the documents: each leads to a file and a heading, and each name that is a link stands in its file."""
import itertools
import os
import re

from repository import ROOT, content, paths
from sources import names_of

PROMISES = "docs/PROMISES.md"
DOCUMENTS = "*.md", "docs/*.md", "bindings/rust/README.md", "crates/*/README.md"
# A code block. What looks like a link there is code.
PIECE = re.compile(r"^```\w*\n.*?^```$", re.M | re.S)
LINK = re.compile(r"\[([^\]]*)\]\((?!\w+:)([^)#\s]*)(?:#([^)\s]*))?\)")
HEADING = re.compile(r"^#+ (.*?) *#*$", re.M)


def without_code(text):
    """The text with its code blocks as empty lines."""
    return PIECE.sub(lambda piece: "\n" * piece[0].count("\n"), text)


def anchors(document):
    """The anchors that GitHub gives the headings of a document."""
    found = []
    for heading in HEADING.findall(without_code(content(document))):
        plain = re.sub(r"\[([^\]]*)\]\([^)]*\)", r"\1", heading)
        anchor = re.sub(r"[^\w\- ]", "", plain.lower()).replace(" ", "-")
        found.append(f"{anchor}-{found.count(anchor)}" if anchor in found else anchor)
    return found


def expanded(name):
    """The names that this one abbreviates: `a::{b, c}.d` stands for `a::b.d` and `a::c.d`."""
    pieces = [re.split(r",\s*", piece) for piece in re.split(r"[{}]", name)]
    return ["".join(chosen) for chosen in itertools.product(*pieces)]


def declares(target, name):
    """Whether the source, specification or proof declares the name, without its type and its clause."""
    word = re.escape(name.partition(".")[0].split("::")[-1])
    return re.search(rf"(?:\b(?:fn|struct|enum|trait|record|abbrev pub|pub|data|ghost) |^){word}\b", content(target), re.M) is not None


def is_linked(target, name):
    """Whether the file has what a link to it names: a public function or its clause, a type with an invariant, a law, a test, a definition,
    an edit, a script, or a word."""
    place = re.fullmatch(r"crates/(\w+)/(src|proofs|specs)/.*", target)
    if place and place[2] == "specs":
        return declares(target, name)
    if place:
        names = names_of(place[1])
        is_known = names.has_clause(name) or names.has_clause(name, "requires") or name in names.public | names.types | names.laws | names.tests
        return is_known and declares(target, name)
    if target.endswith((".edit", ".script")):
        return os.path.splitext(os.path.basename(target))[0] == name
    return re.search(rf"(?<!\w){re.escape(name)}(?!\w)", content(target)) is not None


def check_links(report):
    """Each relative link leads to a file or folder, and to a heading of it. Each name in backquotes that is a link stands in its file.
    docs/PROMISES.md has a link to each edit and each planted body, and only names are links to crates there."""
    linked = set()
    for document in sorted({path for pattern in DOCUMENTS for path in paths(pattern)}):
        text = without_code(content(document))
        for found in LINK.finditer(text):
            where = f"{document}:{text.count(chr(10), 0, found.start()) + 1}"
            path = os.path.normpath(os.path.join(os.path.dirname(document), found[2])) if found[2] else document
            is_there = os.path.exists(f"{ROOT}/{path}")
            report.note(is_there, where, f"there is no file {found[2]}")
            if is_there:
                check_target(report, where, path, found[1], found[3])
            linked |= {path} if document == PROMISES else set()
    for path in (it for folder in ("must-fail", "must-fail-together", "planted") for it in paths(f"crates/*/{folder}/*.edit")):
        report.note(path in linked, PROMISES, f"{path} is not linked")


def check_target(report, where, path, text, anchor):
    """The file of a link has the heading of its anchor, and the name that is its text."""
    if anchor is not None:
        report.note(path.endswith(".md") and anchor in anchors(path), where, f"{path} has no heading #{anchor}")
    if (quoted := re.fullmatch(r"`([^`]+)`", re.sub(r"\s+", " ", text))) and os.path.isfile(f"{ROOT}/{path}"):
        for name in expanded(quoted[1]):
            is_file = name.rstrip("/") in (path, os.path.basename(path)) or path.endswith(f"/{name}")
            report.note(is_file or is_linked(path, name), where, f"{path} has no {name}")
