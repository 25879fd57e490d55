"""The figures of docs/PROMISES.md on how much there is to read: they are counted, not kept by hand."""

import re

from . import closure, printing

PAPER = "docs/PROMISES.md"
ROW = re.compile(r"^\| ([\d,]+) \| ((?:`[\w/.]+`|[^|`])+) \|", re.MULTILINE)
NAMED = {"worked values": "edges", "terms": "terms", "places": "places", "search from a slot": "find_from",
         "the line of `runsheet`": "runsheet_line"}
CELL = re.compile(rf"\| ((?:Demand|Card) \d+|{'|'.join(NAMED)})([^|]*)\| ([\d,]+) (?=\|)")


def figures(believed, text):
    """The same text with today's figures."""
    lines = Lines(believed)
    text = ROW.sub(lambda found: f"| {lines.of_row(found[2]):,} | {found[2]} |", text)
    text = CELL.sub(lambda found: f"| {found[1]}{found[2]}| {lines.of_part(found[1]):,} ", text)
    for pattern, count in lines.of_text():
        text = re.sub(rf"({pattern})[\d,]+(?= lines)", rf"\g<1>{count:,}", text)
    return text


class Lines:
    """Lines of what is believed, without comments."""

    def __init__(self, believed):
        self.believed = believed
        self.counted = set()

    def of_row(self, cell):
        """Of the files and folders named in a row, and of the types of their crates that no row
        before has counted."""
        names = ["crates/" + name for name in re.findall(r"`([\w/.]+)`", cell)]
        crates = {name.split("/")[1] for name in names}
        total = 0
        for made in self.believed.order:
            path = made.module.path
            there = any(path == name or name.endswith("/") and path.startswith(name) for name in names)
            if made.kind == "type" and made.module.crate in crates or there and made.kind != "contract":
                if made not in self.counted:
                    total += made.code()
                    self.counted.add(made)
        return total

    def of_part(self, name):
        """Of a demand or card, with all that it rests on."""
        return printing.size(printing.part(self.believed, NAMED.get(name, name)).definitions)[1]

    def of_text(self):
        """Words of the text, and the figure that follows them."""
        statements = {made for made in self.believed.order if self.believed.is_statement(made)}
        definitions = [made for made in self.believed.definitions if made not in statements]
        below = [made for made in definitions if made.module.crate not in closure.PROMISES]
        yield r"must believe:\s", printing.size(definitions)[1]
        yield r"among them, and\s", printing.size(statements)[1]
        yield r"contracts the definitions are\s", printing.size(below)[1]


def write_figures(believed):
    file = believed.tree.root / PAPER
    file.write_text(figures(believed, file.read_text(encoding="utf8")), encoding="utf8")


def stale(believed):
    """The lines of PROMISES whose figures are not today's."""
    file = believed.tree.root / PAPER
    if not file.is_file():
        return [f"{PAPER} is missing"]
    text = file.read_text(encoding="utf8")
    return [f"{PAPER}:{number}: the figures are not today's: tests/believed --update counts them"
            for number, (old, new) in enumerate(zip(text.split("\n"), figures(believed, text).split("\n")), 1)
            if old != new]
