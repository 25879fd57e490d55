"""What the command prints."""

import re
from collections import Counter

from .closure import Believed


def size(declarations):
    declarations = list(declarations)
    return (len(declarations), sum(made.code() for made in declarations),
            sum(made.comment() for made in declarations))


def numbers(believed):
    """Definitions, lines and lines of comment, by crate and in all; then the statements."""
    statements = [made for made in believed.order if believed.is_statement(made)]
    definitions = [made for made in believed.definitions if made not in set(statements)]
    crates = Counter(made.module.crate for made in definitions)
    yield f"{'':14} {'definitions':>11} {'lines':>6} {'of comment above':>17}"
    for crate in sorted(crates, key=lambda crate: (-crates[crate], crate)):
        yield row(crate, size(made for made in definitions if made.module.crate == crate))
    yield row("in all", size(definitions))
    yield row("statements", size(statements))
    contracts = [made for made in believed.roots if made.kind == "contract"]
    clauses = sum(len(made.clauses) for made in contracts)
    types = sum(made.kind == "type" for made in definitions)
    files = len({made.module.path for made in definitions})
    yield (f"The definitions, of which {types} are structs or enums, are in {files} files. "
           f"{len(contracts)} contracts have {clauses} clauses.")
    yield f"Names of the kit: {len(believed.kit())}"


def row(name, sizes):
    count, lines, comment = sizes
    return f"{name:14} {count:11} {lines:6} {comment:17}"


def listed(believed):
    """Names in reading order, under the promise that first needs them, and then the kit's."""
    for heading, made in under_headings(believed):
        yield heading if made is None else f"  {made.name:28} {made.place}"
    yield "names of the kit"
    yield from (f"  {name}" for name in sorted(believed.kit()))


def texts(believed):
    """The same with the whole text of each."""
    for heading, made in under_headings(believed):
        if made is None:
            yield f"==== {heading}\n"
        else:
            yield f"---- {made.place}\n\n{made.text()}\n"


def counted(believed):
    """One line on what a part rests on."""
    count, lines, comment = size(believed.definitions)
    return f"{count} definitions: {lines} lines, and {comment} of comment above them"


def under_headings(believed):
    """(heading, None) for each group of roots, and (heading, declaration) for what it adds."""
    waiting, heading = [], None
    for made in believed.order:
        waiting.append(made)
        if made in believed.roots:
            if made.group != heading:
                heading = made.group
                yield heading, None
            yield from ((heading, one) for one in waiting)
            waiting = []


def plain(name):
    """A name as any language writes it: demand_3, Demand3 and `demand 3` are the same."""
    return re.sub(r"[-_ ]", "", name).lower()


def part(believed, name):
    """What one promise, call or definition needs."""
    wanted = plain(name)
    starts = [root for root in believed.roots if wanted in (plain(root.name), plain(root.group))
              or root.kind == "contract" and root.name.endswith("_" + name)]
    starts = starts or [made for made in believed.definitions if plain(made.name) == wanted]
    for made in starts:
        made.group = made.group or made.name
    return Believed(believed.tree, starts)


def why(believed, name):
    """For each definition of this name, the way from a root to it; for a name of the kit, the way
    to the first definition that cites it."""
    of_kit = {full for full in believed.kit() if full.split(".")[-1] == name}
    for made in believed.order:
        found = {target.name for _, target in believed.cites[made]} & of_kit
        if plain(made.name) == plain(name) or found:
            for step, one in enumerate(believed.way_to(made)):
                yield f"{'  ' * step}{one.name}  {one.place}"
            of_kit -= found
