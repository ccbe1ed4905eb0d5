#!/usr/bin/env python3
"""Prints an SVG of what a store holds after the script docs/picture.script.

    docs/draw.py [PROGRAM] >docs/picture.svg

PROGRAM is nw. By default it is crates/nw/out/nw, which `rt run` in crates/nw builds. It plays the script, and then questions: `causal` of
each block, `status`, and `walk` of the ticket that the script opened last. The picture shows the answers to these questions, and each state
in the colour that it has in bindings/rust/examples/explorer/page.html. docs/FORMATS.md explains it, and .ci/scripts compares it with
docs/picture.svg.
"""
import re
import subprocess
import sys
from collections import namedtuple
from pathlib import Path

DOCS = Path(__file__).resolve().parent
PROGRAM = DOCS.parent / "crates/nw/out/nw"
Block = namedtuple("Block", "name author round parents state has_vote is_listed")
# The state of a stored block by the answer to its causal read.
STORED = {"causal": "complete", "incomplete": "certified", "uncertified": "stored"}
MARKED = "certified", "complete", "absent"  # the states with a mark

LEFT, TOP, RIGHT = 104, 48, 28              # the margins of the boxes
BOX, BOX_HEIGHT, OUTLINE = 78, 26, 4        # a box, and the distance to its outline
GAP, LANE, ROW_GAP = 124, 46, 4             # the gap between columns, a lane, which has room for one box, and the gap between rows
SAMPLE, SAMPLE_HEIGHT = 26, 13              # a box of the legend
LEGEND_TOP, LEGEND_STEP, LEGEND_HEIGHT = 14, 17, 84     # with its margins, the legend is a fifth of the picture
# The columns of the legend: their left edges, and the styles with their meanings.
LEGEND = {
    24: (("stored", "stored"), ("certified", "certified"), ("complete", "complete"), ("collected", "collected")),
    174: (("absent", "not stored"), ("vote", "has the store's vote"), ("twins", "equivocation")),
    375: (("listed", "listed by the walk"), ("first", "first reference in the walk"), ("walked", "other reference in the walk")),
    615: (("met", "satisfied reference"), ("unmet", "unsatisfied reference"), ("note", "Arrows point to parents.")),
}
ARROWS = "met", "unmet", "walked", "first"  # later ones are drawn over earlier ones
HEAD = """<style>
text{font:12px 'DejaVu Sans Mono',Menlo,Consolas,monospace;fill:#1c2430}
.round{text-anchor:middle}
.legend{font-size:11px}
.row{fill:#f4f5f7}
.stored,.certified,.complete,.absent{fill:#fff;stroke:#2563a8;stroke-width:1.5}
.certified{fill:#b9cde3}
.complete{fill:#2563a8}
.collected{fill:#b9c1cd}
.absent{stroke:#566173;stroke-dasharray:4 3}
.on-complete{fill:#fff}
.listed{fill:none;stroke:#b45309;stroke-width:2}
.first{stroke:#b45309;stroke-width:1.5;marker-end:url(#dark)}
.walked{stroke:#ecd0b5;marker-end:url(#light)}
.met,.unmet{stroke:#c5cbd5;marker-end:url(#grey)}
.unmet{stroke-dasharray:5 4}
line:hover{stroke:#1c2430;stroke-width:3}
.twins{stroke:#b4232f;stroke-width:4}
.garbage{stroke:#566173;stroke-width:2;stroke-dasharray:2 4}
</style>
<defs>
<marker id="dark" viewBox="0 -4 8 8" refX="8" markerWidth="8" markerHeight="8" markerUnits="userSpaceOnUse" orient="auto"><path fill="#b45309" d="M0 -3L8 0L0 3z"/></marker>
<marker id="light" viewBox="0 -4 8 8" refX="8" markerWidth="8" markerHeight="8" markerUnits="userSpaceOnUse" orient="auto"><path fill="#dfb48c" d="M0 -3L8 0L0 3z"/></marker>
<marker id="grey" viewBox="0 -4 8 8" refX="8" markerWidth="8" markerHeight="8" markerUnits="userSpaceOnUse" orient="auto"><path fill="#b1b9c5" d="M0 -3L8 0L0 3z"/></marker>
<circle id="certified" fill="#2563a8" r="5"/>
<path id="complete" fill="none" stroke="#fff" stroke-width="2" d="M-5 0l4 4l6 -9"/>
<text id="absent" class="round" y="4">?</text>
<path id="vote" fill="#1c2430" d="M0 0h-9l9 9z"/>
</defs>
<rect width="100%" height="100%" fill="#fff"/>"""


def play(program):
    """The blocks by name, in the order of the script, and the garbage round."""
    script = (DOCS / "picture.script").read_text()
    lines = re.findall(r"^block (\w+) (\d+) (\d+) (\S+)", script, re.M)
    ticket = re.findall(r"^open (\w+)", script, re.M)[-1]
    questions = [*(f"causal {name}" for name, *_ in lines), "status", f"walk {ticket}"]
    printed = subprocess.run([program], input="\n".join([script, *questions]), stdout=subprocess.PIPE, check=True, text=True).stdout
    *reads, status, walk = (line.split(" ") for line in printed.splitlines()[-len(questions):])
    answers, garbage_round = {name: answer for name, answer, *_ in reads}, int(status[1].removeprefix("g="))
    voted, blocks = re.findall(r"^(\w+) stored vote$", printed, re.M), {}
    for name, author, round_, parents in lines:
        otherwise = "collected" if int(round_) < garbage_round else "absent"
        state, has_vote = STORED.get(answers[name], otherwise), name in voted and answers[name] in STORED
        parents = [] if parents == "-" else parents.split(",")
        blocks[name] = Block(name, int(author), int(round_), parents, state, has_vote, name in walk[2:])
    return blocks, garbage_round


class Grid:
    """The places of the boxes. A row has a lane for each twin, so each block is in the row of its author."""

    def __init__(self, blocks):
        self.rounds, self.slots, self.rows, self.bottom = sorted({it.round for it in blocks}), {}, {}, TOP - ROW_GAP
        for it in blocks:
            self.slots.setdefault((it.author, it.round), []).append(it.name)
        for author in sorted({it.author for it in blocks}):
            height = LANE * max(len(names) for (of, _), names in self.slots.items() if of == author)
            self.rows[author] = self.bottom + ROW_GAP, height
            self.bottom += ROW_GAP + height
        self.width = self.left(self.rounds[-1]) + BOX + RIGHT

    def left(self, round_):
        return LEFT + self.rounds.index(round_) * (BOX + GAP)

    def lane(self, block):
        """How many boxes of the same author and round are above this one."""
        return self.slots[block.author, block.round].index(block.name)

    def corner(self, block):
        """The upper left corner of the box. The boxes of one author and round are in the middle of their row."""
        (top, height), twins = self.rows[block.author], len(self.slots[block.author, block.round])
        return self.left(block.round), top + (height - LANE * twins + LANE - BOX_HEIGHT) // 2 + LANE * self.lane(block)


def rect(style, x, y, width, height, rx=5):
    return f'<rect class="{style}" x="{x}" y="{y}" width="{width}" height="{height}" rx="{rx}"/>'


def line(style, x1, y1, x2, y2):
    return f'<line class="{style}" x1="{x1}" y1="{y1}" x2="{x2}" y2="{y2}"/>'


def text(style, x, y, words):
    return f'<text class="{style}" x="{x}" y="{y}">{words}</text>'


def draw_frame(grid, garbage_round):
    for author, (top, height) in grid.rows.items():
        yield rect("row", 8, top, grid.width - 16, height)
        yield text("author", 20, top + height // 2 + 4, f"author {author}")
    yield text("author", 20, TOP - 10, "round")
    yield from (text("round", grid.left(it) + BOX // 2, TOP - 10, it) for it in grid.rounds)
    if garbage_round in grid.rounds:
        x = grid.left(garbage_round) - GAP // 2
        yield line("garbage", x, 8, x, grid.bottom)
        yield text("garbage-round", x + 6, 18, f"garbage round {garbage_round}")


def draw_references(grid, blocks):
    """The references as arrows. The walk's first reference to a block has another style than the others."""
    drawn, reached = {style: [] for style in ARROWS}, set()
    for child in blocks.values():
        for parent in (blocks[name] for name in child.parents):
            is_next = parent.round + 1 == child.round
            if is_next and child.is_listed and parent.is_listed:
                style = "walked" if parent.name in reached else "first"
                reached.add(parent.name)
            else:
                style = "met" if is_next and parent.state in ("certified", "complete") else "unmet"
            (x1, y1), (x2, y2) = grid.corner(child), grid.corner(parent)
            half, end = BOX_HEIGHT // 2, OUTLINE + 1
            drawn[style].append(line(style, x1 - end, y1 + half, x2 + BOX + end, y2 + half))
    return [arrow for arrows in drawn.values() for arrow in arrows]


def draw_block(grid, block):
    x, y = grid.corner(block)
    if grid.lane(block):
        yield line("twins", x + BOX // 2, y - LANE + BOX_HEIGHT, x + BOX // 2, y)
    if block.is_listed:
        yield rect("listed", x - OUTLINE, y - OUTLINE, BOX + 2 * OUTLINE, BOX_HEIGHT + 2 * OUTLINE, 8)
    yield rect(block.state, x, y, BOX, BOX_HEIGHT)
    if block.state in MARKED:
        yield f'<use href="#{block.state}" x="{x + 15}" y="{y + BOX_HEIGHT // 2}"/>'
    if block.has_vote:
        yield f'<use href="#vote" x="{x + BOX}" y="{y}"/>'
    yield text(f"on-{block.state}", x + 27, y + BOX_HEIGHT // 2 + 4, block.name)


def draw_legend(top):
    for x, entries in LEGEND.items():
        for number, (style, words) in enumerate(entries):
            y = top + number * LEGEND_STEP
            half, middle = x + SAMPLE // 2, y + SAMPLE_HEIGHT / 2
            if style in ARROWS:
                yield line(style, x + SAMPLE, middle, x, middle)
            elif style == "twins":
                yield line(style, half, y, half, y + SAMPLE_HEIGHT)
            elif style != "note":
                yield rect("stored" if style == "vote" else style, x, y, SAMPLE, SAMPLE_HEIGHT, 4)
            if style == "vote":
                yield f'<use href="#vote" x="{x + SAMPLE}" y="{y}"/>'
            elif style in MARKED:
                yield f'<use href="#{style}" transform="translate({half} {middle})scale(.8)"/>'
            yield text("legend", x if style == "note" else x + SAMPLE + 8, y + 10, words)


def main(program=PROGRAM):
    if not Path(program).is_file():
        sys.exit(f"there is no program {program}: `rt run` in crates/nw builds nw")
    blocks, garbage_round = play(program)
    grid = Grid(blocks.values())
    width, height = grid.width, grid.bottom + LEGEND_HEIGHT
    print(f'<svg xmlns="http://www.w3.org/2000/svg" width="{width}" height="{height}" viewBox="0 0 {width} {height}">', HEAD, sep="\n")
    boxes = (it for block in blocks.values() for it in draw_block(grid, block))
    print(*draw_frame(grid, garbage_round), *draw_references(grid, blocks), *boxes, *draw_legend(grid.bottom + LEGEND_TOP), "</svg>", sep="\n")


if __name__ == "__main__":
    main(*sys.argv[1:2])
