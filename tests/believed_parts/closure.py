"""What a reader has to believe: the roots, and every declaration that they rest on.

The roots are what a customer is told without proof: the contracts of the calls that C sees, those
of the promises, and those of the functions that the program `runsheet` calls. Each name in them is
followed to its declaration, and each name there, until only names of the kit are left.
"""

import hashlib
import re
from collections import deque

from .antt import NotFollowed

# The crates that have a part of their own here. No other crate is named.
CALLS = "c_calls"  # every call that C sees
# a function a demand or card, whose contract is what is promised; and the statements, by subject
PROMISES = ("promises", "promises_terms", "promises_headers", "promises_calls", "promises_words", "promises_runs",
            "promises_fades", "promises_rack", "promises_uplink", "promises_sheet")
TABLE = "bench_table"  # the bench table, likewise
SHEET = "sheet"  # what the program `runsheet` prints
WORD = "word"  # its definitions are opened in it alone

PAPER = re.compile(r"(demand|card)_?(\d+)", re.IGNORECASE)


def paper(name):
    """The paper behind the name of a function or a file, and its place among the papers."""
    found = PAPER.fullmatch(name)
    if not found:
        return name, (2, 0)
    kind, number = found.group(1).lower(), int(found.group(2))
    return f"{kind} {number}", (kind != "demand", number)


def promised(tree):
    """The contracts of the promises, in the order of the papers."""
    found = []
    for path in [p for crate in (*PROMISES, TABLE) for p in tree.files(crate, "src")]:
        for function in tree.module(path).functions:
            function.group, place = paper(function.name)
            found.append((place, function))
    return [root for _, root in sorted(found, key=lambda pair: pair[0])]


def exported(tree):
    """The calls that C sees, of which no other crate has one."""
    for path in (path for crate in tree.crates if crate != CALLS for path in tree.files(crate, "src")):
        if "no_mangle" in tree.module(path).code:
            raise NotFollowed(f"{path}: a call that C sees, outside the crate {CALLS}")
    for path in tree.files(CALLS, "src"):
        module = tree.module(path)
        found = [function for function in module.functions if function.exported]
        if len(found) != module.code.count("#[unsafe(no_mangle)]"):
            raise NotFollowed(f"{path}: not every exported function is one that is read here")
        yield from found


def public(tree, crate):
    """The functions that other crates can call: of lib.rt, and of the modules it makes public."""
    waiting = deque([f"crates/{crate}/src/lib.rt"])
    while waiting:
        module = tree.module(waiting.popleft())
        yield from (function for function in module.functions if function.public)
        folder = module.path.removesuffix("/lib.rt").removesuffix(".rt")
        waiting += [f"{folder}/{child}.rt" for child in sorted(module.public_modules)]


def roots(tree):
    """All roots in the order in which they are read, each with its heading."""
    missing = {CALLS, *PROMISES, TABLE, SHEET, WORD} - set(tree.crates)
    if missing:
        raise NotFollowed(f"there is no crate {', '.join(sorted(missing))}: see closure.py")
    found = promised(tree)
    for heading, functions in (("calls", exported(tree)), ("runsheet", public(tree, SHEET))):
        for function in functions:
            function.group = heading
            found.append(function)
    return found


class Believed:
    """The closure of some roots."""

    def __init__(self, tree, starts):
        self.tree, self.roots = tree, list(starts)
        self.order = []  # roots too, each after all that it cites
        self.cites = {}  # declaration: pairs of a written name and a Target
        self.faults = []  # what cannot be followed
        for root in self.roots:
            self.visit(root)
        self.definitions = [d for d in self.order if d.kind != "contract"]

    def visit(self, made):
        if made in self.cites:
            return
        self.cites[made] = []
        try:
            self.cites[made] = self.tree.citations(made)
        except NotFollowed as fault:
            self.faults.append(str(fault))
        for _, target in self.cites[made]:
            if target.declaration is not None:
                self.visit(target.declaration)
        self.order.append(made)

    def kit(self):
        """The names of the kit that are cited."""
        return {t.name for found in self.cites.values() for _, t in found if t.declaration is None}

    def digests(self, made):
        """Of its text, and of what each name in it refers to."""
        names = sorted({f"{written} = {target.name}" for written, target in self.cites[made]})
        texts = (made.normal_text(), "\n".join(names))
        return tuple(hashlib.sha256(text.encode()).hexdigest()[:16] for text in texts)

    def is_statement(self, made):
        """Whether it is a promise: `Name : Type 0` in the specs of the promises."""
        signature = [token.text for token in made.statements[0].tokens()]
        of_promises = made.kind == "definition" and made.module.crate in (*PROMISES, TABLE)
        return of_promises and signature[-4:] == [made.name, ":", "Type", "0"]

    def way_to(self, made):
        """The shortest way from a root to a declaration."""
        before, waiting = {root: None for root in self.roots}, deque(self.roots)
        while waiting:
            here = waiting.popleft()
            if here is made:
                way = [here]
                while before[way[-1]] is not None:
                    way.append(before[way[-1]])
                return way[::-1]
            for _, target in self.cites[here]:
                if target.declaration is not None and target.declaration not in before:
                    before[target.declaration] = here
                    waiting.append(target.declaration)
        return []


def believed(tree):
    return Believed(tree, roots(tree))
