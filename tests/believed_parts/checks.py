"""The faults that the gate looks for, and the list of what is believed, docs/believed.txt."""

from functools import lru_cache

from . import rattle, reading
from .antt import NotFollowed
from .closure import WORD
from .scope import is_name

LIST = "docs/believed.txt"
HEAD = """\
# What a reader has to believe, in reading order: each promise and contract, after the definitions
# that it rests on. A line is a name, its file, a digest of its text without comments, and a digest
# of what each name in it refers to. `tests/believed` checks it, and with --update writes it.
"""


def faults(believed):
    """A line for each."""
    return (
        not_followed(believed)
        + misplaced(believed)
        + idle(believed)
        + two_meanings(believed)
        + opened(believed.tree)
        + transparent(believed)
        + unlisted(believed)
        + reading.stale(believed)
    )


def not_followed(believed):
    return [f"not followed: {fault}" for fault in believed.faults]


# ---- where definitions are

def is_spec(path):
    """Whether a file holds definitions to be believed: crates/X/specs/Y.antt."""
    parts = path.split("/")
    return len(parts) == 4 and parts[2] == "specs" and parts[3] != "Inner.antt"


def misplaced(believed):
    """Definitions that must be believed and are not where a reader looks for them."""
    return [
        f"{made.place}: {made.name} must be believed, but is not in a file of specs/ itself"
        for made in believed.definitions
        if made.kind != "type" and not is_spec(made.module.path)
    ]


def idle(believed):
    """Whatever else is in the files of definitions to be believed."""
    tree, found = believed.tree, []
    needed = {(made.module.path, made.name) for made in believed.order}
    for path in filter(is_spec, (p for crate in tree.crates for p in tree.files(crate, "specs"))):
        for made in readable(tree, path, found):
            if (path, made.name) not in needed:
                found.append(f"{made.place}: no promise or contract rests on {made.name}, "
                             "which is in a file of definitions to be believed")
    return found


def two_meanings(believed):
    """Names that mean one thing in one file and another in the next."""
    files = {}
    for made in believed.order:
        files.setdefault(made.name, set()).add(made.module.path)
    return [f"{name} is defined in {' and in '.join(sorted(paths))}: one name has one meaning"
            for name, paths in sorted(files.items()) if len(paths) > 1]


def readable(tree, path, found):
    """The declarations of a file; one that cannot be read is a fault."""
    try:
        return tree.module(path).declarations
    except NotFollowed as fault:
        found.append(f"not followed: {fault}")
        return []


# ---- who opens the definitions of crate `word`

def opened(tree):
    """Proofs outside the crate `word` that look into its definitions."""
    found = []
    names = {m.name for path in tree.files(WORD, "specs") for m in readable(tree, path, found)}
    for crate in tree.crates:
        if crate == WORD:
            continue
        for path in (p for part in ("specs", "proofs", "src") for p in tree.files(crate, part)):
            readable(tree, path, found)
            if path in tree.modules:
                found += opened_in(tree, tree.module(path), names)
    return found


def opened_in(tree, module, names):
    for number, path in openings(module):
        written = ".".join(path)
        try:
            made = tree.resolve(module, path).declaration
        except NotFollowed:
            if path[-1] in names:
                yield f"{module.path}:{number}: {written} may be the definition of {WORD}"
            continue
        if made is not None and made.module.crate == WORD and opens(tree, made):
            yield (f"{module.path}:{number}: opens {written} of crate {WORD}, "
                   "which only that crate may do")


def opens(tree, made, seen=()):
    """Whether to open a declaration of `word` is to open a definition of its specs: it is one, or
    its own `unfolding` line names one."""
    if "/specs/" in made.module.path:
        return True
    for _, path in openings_of(line for part in made.statements for line in part.lines):
        try:
            other = tree.resolve(made.module, path).declaration
        except NotFollowed:
            return True
        if other is not None and other not in seen and opens(tree, other, (*seen, made)):
            return True
    return False


def transparent(believed):
    """Definitions of `word` that are open everywhere: an `abbrev`, which needs no opening. One that
    is a statement may be, and so may those of specs/After.antt, which join others that are shut."""
    found = []
    for made in believed.definitions:
        head = [token.text for token in made.statements[0].tokens()]
        if (made.module.crate == WORD and made.kind == "definition" and "unfoldable" not in head
                and head[-2:] != ["Type", "0"] and not str(made.module.path).endswith("/After.antt")):
            found.append(f"{made.place}: {made.name} is a definition of crate {WORD} and not "
                         "`unfoldable`, so that every crate sees into it")
    return found


@lru_cache(maxsize=None)
def openings(module):
    """The names that a file opens, with their lines."""
    if not any("unfold" in line for line in module.text):
        return []
    parts = [part for made in module.declarations for part in made.statements]
    if isinstance(module, rattle.RattleModule):
        parts = [rattle.statement(module.bare, 0, len(module.bare))]
    return [opening for part in parts for opening in openings_of(part.lines)]


def openings_of(lines):
    """`unfolding f g` with the deeper lines below it, and `unfold f g in` up to its `in`."""
    lines = list(lines)
    for at, line in enumerate(lines):
        for place, token in enumerate(line.tokens if "unfold" in line.raw else []):
            if token.text not in ("unfolding", "unfold"):
                continue
            names = [(line.number, name) for name in line.tokens[place + 1:]]
            for below in lines[at + 1:]:
                if token.text == "unfolding" and below.indent <= line.indent:
                    break
                names += [(below.number, name) for name in below.tokens]
            if token.text == "unfold":
                ends = [n for n, (_, name) in enumerate(names) if name.text == "in"]
                names = names[:ends[0]] if ends else names
            yield from paths(names)


def paths(names):
    """Numbered tokens as numbered paths: what dots tie together is one name."""
    path, start = [], 0
    for number, token in names:
        if token.text == ".":
            continue
        if path and not token.tight:
            yield start, tuple(path)
            path = []
        if is_name(token):
            start = number
            path.append(token.text)
    if path:
        yield start, tuple(path)


# ---- the list

def listing(believed):
    """Name, file and the two digests of each line."""
    return [(made.name, made.module.path, *believed.digests(made)) for made in believed.order]


def write_list(believed):
    text = HEAD + "".join(" ".join(line) + "\n" for line in listing(believed))
    (believed.tree.root / LIST).write_text(text, encoding="utf8")


def unlisted(believed):
    """Differences between what is believed and the list of it."""
    file = believed.tree.root / LIST
    if not file.is_file():
        return [f"{LIST} is missing: tests/believed --update writes it"]
    lines = file.read_text(encoding="utf8").split("\n")
    old = [tuple(line.split(" ")) for line in lines if line and not line.startswith("#")]
    if any(len(line) != 4 for line in old):
        return [f"{LIST}: a line is not a name, a file and two digests"]
    new = listing(believed)
    if old == new:
        return []
    found = differences(old, new) or ["the definitions are read in another order"]
    found.append("if each change is meant, tests/believed --update takes it in")
    return [f"{LIST}: {line}" for line in found]


def differences(old, new):
    """A line for each declaration that went, came, moved or changed."""
    before, now = ({line[:2]: line[2:] for line in lines} for lines in (old, new))
    gone = [key for key in before if key not in now]
    found = []
    for (name, path), digests in now.items():
        if (name, path) in before:
            source = path
        else:
            same = [key for key in gone if key[0] == name and before[key][0] == digests[0]]
            if not same:
                found.append(f"{name} ({path}) is believed and not listed")
                continue
            source = same[0][1]
            gone.remove(same[0])
            found.append(f"{name} ({source}) has moved to {path}")
        text, names = before[name, source]
        if text != digests[0]:
            found.append(f"{name} ({path}): its text has changed")
        elif names != digests[1]:
            found.append(f"{name} ({path}): its text is the same, but a name in it refers to "
                         "something else, or to something that has moved")
    return [f"{name} ({path}) is no longer believed" for name, path in gone] + found
