"""Tests of tests/believed itself, in a temporary copy of the repository.

Each fault that the gate looks for is planted into the copy and must be seen; changes without a
meaning must not be. What is believed is also computed a second time, by a reader that shares no
code with the first and knows no scopes: it must find everything that the first finds.
"""

import re
import shutil
import sys
import tempfile
from pathlib import Path

from . import checks, closure, reading
from .antt import NotFollowed
from .tree import HOLE, LIBRARIES, Tree

NUMBER = re.compile(r"(?<=[ (])\d{2,}(?=[ );]|$)", re.M)
LAW = "pub planted : {A : Type 0} → A → A\nplanted a = a\n"


class Copy:
    """A copy of the repository, in which edits last until the next `restore`."""

    def __init__(self, root, folder):
        self.root, self.saved, self.cache = Path(folder), {}, {}
        left_out = {"must-fail", "stdin", "stdout", "data", "out"}  # of a crate's folder
        shutil.copytree(Path(root) / "crates", self.root / "crates", ignore=lambda folder, names:
                        left_out & set(names) if Path(folder).parent.name == "crates" else set())
        shutil.copy(Path(root) / "crates.txt", self.root)
        (self.root / "docs").mkdir()
        shutil.copy(Path(root) / reading.PAPER, self.root / reading.PAPER)
        self.believed = closure.believed(Tree(self.root, self.cache))
        checks.write_list(self.believed)
        self.before = set(self.faults())

    def faults(self):
        try:
            return checks.faults(closure.believed(Tree(self.root, self.cache)))
        except NotFollowed as fault:
            return [f"not followed: {fault}"]

    def read(self, path):
        return (self.root / path).read_text(encoding="utf8")

    def write(self, path, text):
        file = self.root / path
        self.saved.setdefault(path, self.read(path) if file.exists() else None)
        file.parent.mkdir(parents=True, exist_ok=True)
        file.write_text(text, encoding="utf8")

    def edit(self, path, old, new):
        text = self.read(path)
        assert old in text, f"{path} has no '{old}'"
        self.write(path, text.replace(old, new, 1))

    def restore(self):
        for path, text in self.saved.items():
            if text is None:
                (self.root / path).unlink()
            else:
                (self.root / path).write_text(text, encoding="utf8")
        self.saved.clear()


# ---- what to plant a fault into

def lines_of(made):
    return "\n".join(made.module.text[made.first - 1:made.last])


def definitions(copy):
    """The believed definitions of whole files, outside the promises."""
    return [made for made in copy.believed.definitions
            if made.kind == "definition" and checks.is_spec(made.module.path)
            and made.module.crate not in closure.PROMISES and not made.statements[0].telescopes]


def alone(copy):
    """A definition that cites nothing else of its file, but something of the repository."""
    for made in definitions(copy):
        cited = [target.declaration for _, target in copy.believed.cites[made]]
        files = {other.module.path for other in cited if other is not None}
        if files and made.module.path not in files:
            return made
    raise AssertionError("no definition is fit to be moved")


def with_figure(declarations):
    return next(made for made in declarations if NUMBER.search(lines_of(made)))


def written_path(made):
    return f"{LIBRARIES}.{made.module.name}"


# ---- the faults: each plants one, and gives what must be said of it

def moved_to_laws(copy):
    made = alone(copy)
    module, text = made.module, lines_of(made)
    laws = f"{LIBRARIES}.{module.crate}.proofs.Laws.Planted"
    head = "\n".join(line for line in module.text if line.startswith("use "))
    copy.write(f"crates/{module.crate}/proofs/Laws/Planted.antt", f"{head}\n\n{text}\n")
    copy.edit(module.path, text, "")
    copy.write(module.path, f"pub use {laws}.{{{made.name}}}\n" + copy.read(module.path))
    return f"{made.name} must be believed, but is not in a file of specs/ itself"


def moved_to_inner(copy):
    made = alone(copy)
    module, text = made.module, lines_of(made)
    inner = f"crates/{module.crate}/specs/Inner.antt"
    head = "\n".join(line for line in module.text if line.startswith("use "))
    old = copy.read(inner) if (copy.root / inner).exists() else ""
    copy.write(inner, f"{head}\n{old}\n{text}\n")
    copy.edit(module.path, text, "")
    copy.write(module.path, f"pub use {LIBRARIES}.{module.crate}.specs.Inner.{{{made.name}}}\n"
               + copy.read(module.path))
    return f"{made.name} must be believed, but is not in a file of specs/ itself"


def law_in_specs(copy):
    path = alone(copy).module.path
    copy.write(path, copy.read(path) + "\n" + LAW)
    return "no promise or contract rests on planted"


def strange_form_in_specs(copy):
    path = alone(copy).module.path
    copy.write(path, copy.read(path) + "\nopen planted thing using (other)\n")
    return "no promise or contract rests on open"


def figure_in_definition(copy):
    return figure(copy, with_figure(definitions(copy)))


def figure_in_promise(copy):
    return figure(copy, with_figure(filter(copy.believed.is_statement, copy.believed.order)))


def name_of_another(copy):
    """A promise gets the name of one in another file."""
    statements = [made for made in copy.believed.order if copy.believed.is_statement(made)]
    first = statements[0]
    second = next(made for made in statements if made.module.path != first.module.path)
    text = copy.read(second.module.path)
    copy.write(second.module.path, re.sub(rf"\b{second.name}\b", first.name, text))
    return f"{first.name} is defined in "


def figure(copy, made):
    text = lines_of(made)
    other = NUMBER.sub(lambda found: str(int(found.group(0)) + 1), text, count=1)
    copy.edit(made.module.path, text, other)
    return f"{made.name} ({made.module.path}): its text has changed"


def number_in_type(copy):
    made = next(made for made in copy.believed.definitions
                if made.kind == "type" and re.search(r"\b(u64|usize)\b", lines_of(made)))
    text = lines_of(made)
    copy.edit(made.module.path, text, re.sub(r"\bu64\b|\busize\b", "u32", text, count=1))
    return f"{made.name} ({made.module.path}): its text has changed"


def contract_changed(copy):
    call = next(root for root in copy.believed.roots if root.module.crate == closure.CALLS)
    text = lines_of(call)
    copy.edit(call.module.path, text, text.replace("ensures", "requires", 1))
    return f"{call.name} ({call.module.path}): its text has changed"


def contract_dropped(copy):
    call = next(root for root in copy.believed.roots if root.module.crate == closure.CALLS)
    copy.edit(call.module.path, f"fn {call.name}(", "fn planted(")
    return f"{call.name} ({call.module.path}) is no longer believed"


def call_elsewhere(copy):
    path = f"crates/{closure.SHEET}/src/lib.rt"
    copy.write(path, copy.read(path) + '\n#[unsafe(no_mangle)]\npub extern "C" fn planted() {}\n')
    return f"{path}: a call that C sees, outside the crate {closure.CALLS}"


def figure_of_the_paper(copy):
    copy.edit(reading.PAPER, "| Card 2 | ", "| Card 2 | 1")
    return f"{reading.PAPER}:"


def names_swapped(copy, of_kit):
    """Exchanges what two imported names mean: no declaration has another text."""
    for made in definitions(copy):
        module = made.module
        cited = [written for written, target in copy.believed.cites[made]
                 if (target.declaration is None) == of_kit and written in module.imports]
        pairs = [(a, b) for a in cited for b in cited if a < b
                 and module.imports[a] == (module.imports[b][0], a)
                 and module.imports[b] == (module.imports[a][0], b)]
        if pairs:
            (a, b), path = pairs[0], ".".join(module.imports[pairs[0][0]][0])
            line = next(line for line in module.text if line.startswith(f"use {path}.{{"))
            items = line.rstrip("}").split(".{")[1].split(", ")
            other = [f"{b} as {a}" if i == a else f"{a} as {b}" if i == b else i for i in items]
            copy.edit(module.path, line, f"use {path}.{{{', '.join(other)}}}")
            return f"{made.name} ({module.path}): its text is the same, but a name"
    raise AssertionError("no definition cites two names of one use line")


def use_line_changed(copy):
    return names_swapped(copy, of_kit=False)


def use_line_of_the_kit_changed(copy):
    return names_swapped(copy, of_kit=True)


def name_unknown(copy):
    made = alone(copy)
    written = next(w for w, target in copy.believed.cites[made] if target.declaration is not None)
    text = lines_of(made)
    other = re.sub(rf"(?<=[ (]){re.escape(written)}(?=[ )]|$)", "planted", text, flags=re.M)
    copy.edit(made.module.path, text, other)
    return "nothing is known of planted"


# ---- definitions of `word`, opened elsewhere

def shut(copy):
    return next(made for made in definitions(copy) if made.module.crate == closure.WORD)


def opener(copy, use, opening, term="a"):
    """A proof outside the crate `word`."""
    copy.write(f"crates/{closure.CALLS}/proofs/Laws/Planted.antt",
               f"{use}\n\npub planted : {{A : Type 0}} → A → A\n{opening}planted a = {term}\n")
    return f"of crate {closure.WORD}, which only that crate may do"


def opened_by_name(copy):
    made = shut(copy)
    return opener(copy, f"use {written_path(made)}.{{{made.name}}}", f"unfolding {made.name}\n")


def opened_by_another_name(copy):
    made = shut(copy)
    return opener(copy, f"use {written_path(made)}.{{{made.name} as it}}", "unfolding it\n")


def opened_by_alias(copy):
    made = shut(copy)
    return opener(copy, f"use {written_path(made)} as it", f"unfolding it.{made.name}\n")


def opened_by_path(copy):
    made = shut(copy)
    return opener(copy, "", f"unfolding {written_path(made)}.{made.name}\n")


def opened_on_the_next_line(copy):
    made = shut(copy)
    use = f"use {LIBRARIES}.std.specs.Prelude.{{length}}\nuse {written_path(made)}.{{{made.name}}}"
    return opener(copy, use, f"unfolding length\n    {made.name}\n")


def opened_in_a_term(copy):
    made = shut(copy)
    use = f"use {written_path(made)}.{{{made.name}}}"
    return opener(copy, use, "", f"(unfold {made.name} in a)")


def opened_through_a_crate(copy):
    made = shut(copy)
    copy.write(f"crates/{closure.PROMISES[0]}/proofs/Laws/Planted.antt",
               f"unfoldable pub use {written_path(made)}.{{{made.name} as it}}\n")
    use = f"use {LIBRARIES}.{closure.PROMISES[0]}.proofs.Laws.Planted.{{it}}"
    return opener(copy, use, "unfolding it\n")


def opened_through_a_law(copy):
    made = shut(copy)
    copy.write(f"crates/{closure.WORD}/proofs/Laws/Planted.antt",
               f"use {written_path(made)}.{{{made.name}}}\n\n"
               f"unfoldable pub it : {{A : Type 0}} → A → A\nunfolding {made.name}\nit a = a\n")
    use = f"use {LIBRARIES}.{closure.WORD}.proofs.Laws.Planted.{{it}}"
    return opener(copy, use, "unfolding it\n")


def open_to_all(copy):
    made = shut(copy)
    copy.edit(made.module.path, f"unfoldable pub {made.name} :", f"abbrev pub {made.name} :")
    return f"{made.name} is a definition of crate {closure.WORD} and not `unfoldable`"


def opened_in_a_contract(copy):
    made, path = shut(copy), f"crates/{closure.SHEET}/src/lib.rt"
    clause = f"ensures {{ unfold planted.{made.name} in result }}"
    copy.write(path, copy.read(path) + f"\nghost use {written_path(made)} as planted;\n"
               f"fn unused()\n    {clause}\n{{\n}}\n")
    return f"of crate {closure.WORD}, which only that crate may do"


# ---- changes that are none

def white_space(copy):
    made = alone(copy)
    text = lines_of(made)
    other = text.replace(" = ", "  =  -- planted\n        ").replace(" → ", "\n    →   ", 1)
    copy.edit(made.module.path, text, "-- planted\n" + other)


def own_name(copy):
    """A definition of another crate with the name of one of `word`."""
    name = shut(copy).name
    copy.write(f"crates/{closure.CALLS}/proofs/Laws/Planted.antt",
               f"{name} : {{A : Type 0}} → A → A\n{name} a = a\n\n"
               f"planted : {{A : Type 0}} → A → A\nunfolding {name}\nplanted a = {name} a\n")


def private_vocabulary(copy):
    crate = alone(copy).module.crate
    copy.write(f"crates/{crate}/specs/Inner/Planted.antt", LAW)


FAULTS = [
    moved_to_laws, moved_to_inner, law_in_specs, strange_form_in_specs, figure_in_definition,
    figure_in_promise, name_of_another, number_in_type, contract_changed, contract_dropped, call_elsewhere,
    figure_of_the_paper, use_line_changed, use_line_of_the_kit_changed, name_unknown,
    opened_by_name, opened_by_another_name, opened_by_alias, opened_by_path,
    opened_on_the_next_line, opened_in_a_term, opened_through_a_crate, opened_through_a_law,
    opened_in_a_contract, open_to_all,
]
NO_FAULTS = [white_space, own_name, private_vocabulary]


# ---- what is believed, computed a second time

HEAD = re.compile(
    r'^( *)(?:(?:unfoldable|abbrev|pub) )*(?:record |data )?([^\s(){}.;,@"«»]+)'
    r"(?: [({].*)? :(?: |$)"
)


def words(text):
    return set(re.split(r'[\s(){}.;,@"«»]+', re.sub(r"(^|\s)--.*", "", text, flags=re.M)))


def crude(root):
    """Places of declarations that the roots could cite at all: any word that is declared anywhere
    counts as cited, whatever file it is in and whether or not it is bound."""
    cites, declared = {}, {}

    def declare(name, place, text):
        cites.setdefault(place, set()).update(words(text))
        for part in [name, *filter(None, name.split(HOLE))]:
            declared.setdefault(part, set()).add(place)

    for file in sorted((root / "crates").rglob("*.antt")):
        lines = file.read_text(encoding="utf8").split("\n")
        heads = [(n, HEAD.match(line)) for n, line in enumerate(lines) if HEAD.match(line)]
        for count, (start, head) in enumerate(heads):
            indent = len(head.group(1))
            ends = [n for n, other in heads[count + 1:] if len(other.group(1)) <= indent]
            text = "\n".join(lines[start:ends[0] if ends else len(lines)])
            blocks = "\n".join(line for line in lines if line.startswith("module _"))
            declare(head.group(2), f"{file.relative_to(root)}:{start + 1}", text + "\n" + blocks)
        for new, old in re.findall(r"(\S+) as ([^\s,}]+)", "\n".join(lines)):
            declare(old, f"{file.relative_to(root)}: {new} as {old}", new)
    for file in sorted((root / "crates").rglob("*.rt")):
        text = file.read_text(encoding="utf8")
        for found in re.finditer(r"^(?: *#\[.*\]\n)* *(?:pub )?(?:struct|enum) [^;{]*[;{][^}]*", text, re.M):
            number = text.count("\n", 0, found.start()) + 1
            for name in re.findall(r"\b[A-Z]\w*", found.group(0)):
                declare(name, f"{file.relative_to(root)}:{number}", found.group(0))
    starts = [root / "crates" / crate / "src" for crate in
              (closure.CALLS, *closure.PROMISES, closure.TABLE, closure.SHEET)]
    starts += [root / "crates" / crate / "specs" for crate in closure.PROMISES]
    files = [file for folder in starts for file in folder.rglob("*.*t")]
    waiting = {word for file in files for word in words(file.read_text(encoding="utf8"))}
    seen, places = set(), set()
    while waiting:
        word = waiting.pop()
        seen.add(word)
        for place in declared.get(word, ()):
            if place not in places:
                places.add(place)
                waiting |= cites[place] - seen
    return places


class Wordy(Tree):
    """Takes every word of a declaration that can be followed for a citation, bound or not."""

    def citations(self, made):
        found = []
        for word in set(re.split(r'[\s(){};,@"«»]+', made.normal_text())) - {made.name}:
            path = tuple(filter(None, word.split(".")))
            try:
                found += [(word, self.resolve(made.module, path))] if path else []
            except NotFollowed:
                pass  # a local name, or a word of the language
        return found


def second_reading(copy):
    """Compares what is believed with two sets that contain it."""
    mine = {made.place for made in copy.believed.definitions}
    for place in sorted(mine - crude(copy.root)):
        yield f"{place} is believed, but no word leads to it"
    wordy = closure.believed(Wordy(copy.root, copy.cache))
    wider = {made.place: made for made in wordy.definitions}
    for place in sorted(mine - set(wider)):
        yield f"{place} is believed, but no word that is in scope leads to it"
    for place in sorted(set(wider) - mine):
        way = " > ".join(made.name for made in wordy.way_to(wider[place])[-2:])
        yield (f"{place}: {way}: the second is not believed, but a word of the first is spelled"
               " like it. If that is a local name, give it another; if not, a citation was missed")


def run(root):
    """The status: 0 if every fault was seen and nothing else was."""
    wrong = []
    with tempfile.TemporaryDirectory() as folder:
        copy = Copy(root, folder)
        for plant in FAULTS + NO_FAULTS:
            expected = plant(copy)
            new = [fault for fault in copy.faults() if fault not in copy.before]
            meant = [fault for fault in new if not fault.startswith(reading.PAPER)]  # lines may be more
            if plant in NO_FAULTS and meant:
                wrong.append(f"{plant.__name__}: is no fault, but: {meant[0]}")
            if plant in FAULTS and not any(expected in fault for fault in new):
                wrong.append(f"{plant.__name__}: not seen, only {new}")
            copy.restore()
        if set(copy.faults()) != copy.before:
            wrong.append("the copy is not as it was")
        wrong += second_reading(copy)
    for line in wrong:
        print(f"believed: selftest: {line}", file=sys.stderr)
    if not wrong:
        print(f"believed: {len(FAULTS)} planted faults seen, and {len(NO_FAULTS)} changes passed")
    return 1 if wrong else 0
