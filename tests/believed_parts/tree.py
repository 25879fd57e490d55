"""The repository as modules: finds the declaration that a written name refers to.

A module's path is written `Rattle.word.specs.Word`, in every crate. The structs and enums of a crate
are below `specs.declared`. A crate that crates.txt does not list is the kit's, and its names are not
followed further.
"""

import os
import re
from pathlib import Path
from typing import NamedTuple, Optional

from . import antt, rattle
from .antt import Declaration, NotFollowed
from .scope import Scope, nest

# The first step of every path.
LIBRARIES = "Rattle"
# The crates of the kit that the repository uses without listing them.
KIT = {"std", "core"}
# What every antt file has without a use line.
PRELUDE = set(
    "⊥ absurd ¬◌ Dec yes no Unit tt Id J Path IsProp IsSet Discrete ∥◌∥₁ ∣◌∣₁ squash₁"
    " rw rw⁻¹ simp search grw cc omega cap".split()
)
# The place of an argument in the name of an operator.
HOLE = "◌"


class Target(NamedTuple):
    """What a name refers to; the declaration is None where it is the kit's."""

    name: str  # in full: word.specs.Word.word_of, or Rattle.std.specs.Int.Bits.bit_xor
    declaration: Optional[Declaration]


class Tree:
    def __init__(self, root, cache=None):
        self.root = Path(root)
        self.paths = set()  # of all antt and Rattle files, relative to the root
        for folder, below, names in os.walk(self.root / "crates"):
            folder = os.path.relpath(folder, self.root)
            if folder.count("/") == 1 and "out" in below:
                below.remove("out")  # what rt makes, with copies of the files
            self.paths |= {f"{folder}/{name}" for name in names if name.endswith((".antt", ".rt"))}
        self.parts = {}  # crate and part: its files
        for path in sorted(self.paths):
            self.parts.setdefault(tuple(path.split("/")[1:3]), []).append(path)
        self.crates = sorted({crate for crate, _ in self.parts})
        listed = (self.root / "crates.txt").read_text(encoding="utf8")
        self.kit_crates = (set(re.findall(r"\w+", re.sub("#.*", "", listed))) | KIT) - set(self.crates)
        self.modules, self.located = {}, {}
        # Files already read, by path and text, which a second tree can share.
        self.cache = {} if cache is None else cache

    # ---- files

    def files(self, crate, part):
        """The files of specs/, proofs/ or src/ of a crate, relative to the root."""
        return self.parts.get((crate, part), [])

    def module(self, path):
        if path not in self.modules:
            text = (self.root / path).read_text(encoding="utf8")
            _, crate, *rest = path.rsplit(".", 1)[0].split("/")
            name = ".".join([crate] + rest)
            if (path, text) not in self.cache:
                reader = rattle if path.endswith(".rt") else antt
                self.cache[path, text] = reader.read(path, crate, name, text)
            self.modules[path] = self.cache[path, text]
        return self.modules[path]

    # ---- from a written path to a declaration

    def locate(self, steps):
        """The module that a whole path starts with, None if it is the kit's, and the steps left."""
        key = tuple(steps)
        if key not in self.located:
            self.located[key] = self.find(steps)
        return self.located[key]

    def find(self, steps):
        if steps[0] != LIBRARIES or len(steps) < 2:
            raise NotFollowed(f"the library {steps[0]} is not known")
        crate = steps[1]
        if crate not in self.crates:
            if crate in self.kit_crates:
                return None, steps
            raise NotFollowed(f"there is no crate {crate}")
        if steps[2:4] == ["specs", "declared"]:
            return self.declared(crate, steps[4:])
        for count in range(len(steps), 2, -1):
            parts = ["Lib"] if count == 3 else []
            file = "/".join(["crates"] + steps[1:count] + parts) + ".antt"
            if file in self.paths:
                return self.module(file), steps[count:]
        raise NotFollowed(f"no file has the module {'.'.join(steps)}")

    def declared(self, crate, steps):
        """The Rattle module of `declared.mods.Type`, and the steps left without `TheVariants`."""
        mods = [step for step in steps if step[0].islower()]
        rest = [step for step in steps if step not in mods and step != "TheVariants"]
        for file in ["/".join(mods) or "lib", "/".join(mods + ["mod"])]:
            path = f"crates/{crate}/src/{file}.rt"
            if path in self.paths:
                return self.module(path), rest
        raise NotFollowed(f"no file declares {'.'.join(steps)} of crate {crate}")

    def expanded(self, module, steps):
        """A path from its library on; as written it can start with an alias or a child module."""
        if steps[0] == "package":
            return steps[1:]
        if steps[0] in module.aliases:
            return module.aliases[steps[0]] + steps[1:]
        if steps[0] in module.children:
            head = module.path.removesuffix("/Lib.antt").removesuffix(".antt").split("/")[1:]
            return [LIBRARIES] + head + steps
        return steps

    def whole(self, module, steps, seen=()):
        """What a path refers to that is written in a module."""
        steps = self.expanded(module, steps)
        found, rest = self.locate(steps)
        if found is None:
            return Target(".".join(steps), None)
        return self.item(found, rest, seen)

    def item(self, module, steps, seen=()):
        """A name as another module sees it, with the members behind it."""
        if not steps:
            raise NotFollowed(f"{module.name} is a module, and no declaration")
        name, *rest = steps
        if isinstance(module, rattle.RattleModule):
            made = module.items.get(name)
            if made:
                return self.declared_item(made, rest)
        elif name in module.items:
            return self.own(module.items[name], name, rest)
        elif name in module.passed_on and (module, name) not in seen:
            path, source = module.imports[name]
            return self.whole(module, path + [source] + rest, (*seen, (module, name)))
        elif module.odd:
            raise NotFollowed(f"{module.path}: 'use {module.odd[0]}' is not followed")
        raise NotFollowed(f"{module.name} has no {name}")

    def own(self, made, name, rest):
        """A declaration under its name or that of a constructor; what is behind it are fields."""
        if name == made.name and rest and rest[0] in made.members:
            name = rest[0]
        ending = f".{name}" if name != made.name else ""
        return Target(made.full_name + ending, made)

    def declared_item(self, made, rest):
        """What `declared.Type` has: the type under its own name, and the variants of an enum."""
        if rest in ([], [made.name]):
            return Target(made.full_name, made)
        if len(rest) == 1 and rest[0] in made.members:
            return Target(f"{made.full_name}.{rest[0]}", made)
        raise NotFollowed(f"{made.full_name} has no {'.'.join(rest)}")

    # ---- from a name in a text to a declaration

    def resolve(self, module, path):
        """What a name that a module's text cites refers to."""
        first, rest = path[0], list(path[1:])
        if module.odd and first not in module.items and first not in module.imports:
            raise NotFollowed(f"'use {module.odd[0]}' is not followed")
        if rest and first in module.aliases and not self.has_member(module, path):
            return self.whole(module, list(path))
        if first in module.items:
            return self.own(module.items[first], first, rest)
        if first in module.imports:
            return self.imported(module, first, rest)
        if rest and (first in module.children or first in ("package", LIBRARIES)):
            return self.whole(module, list(path))
        for name in [*module.items, *module.imports]:
            if HOLE in name and first in name.split(HOLE):
                return self.resolve(module, (name,))
        for name in PRELUDE:
            if first == name or HOLE in name and first in name.split(HOLE):
                return Target(f"Prim.{name}", None)
        raise NotFollowed(f"nothing is known of {'.'.join(path)}")

    def imported(self, module, name, rest):
        path, source = module.imports[name]
        return self.whole(module, path + [source] + rest)

    def has_member(self, module, path):
        """Whether the first name is a data type too and the second a constructor of it."""
        try:
            if path[0] in module.items:
                return path[1] in module.items[path[0]].members
            if path[0] in module.imports:
                made = self.imported(module, path[0], []).declaration
                return made is not None and path[1] in made.members
        except NotFollowed:
            pass
        return False

    def is_constructor(self, module, path):
        """Whether a name in a pattern is a constructor. A name of the kit is taken for one: then it
        counts as cited, and that can only add names of the kit."""
        known = path[0] in module.items or path[0] in module.imports or path[0] in PRELUDE
        if not known and len(path) == 1:
            operators = [n for n in [*module.items, *module.imports] if HOLE in n]
            if not any(path[0] in name.split(HOLE) for name in operators):
                return False
        target = self.resolve(module, path)
        made = target.declaration
        return made is None or target.name != made.full_name and bool(made.members)

    # ---- what a declaration cites

    def citations(self, made):
        """What a declaration cites, in the order of its text: names as written, with Targets."""
        module = made.module
        try:
            if made.kind == "type":
                return self.types_in(module, made.types, set())
            scope = Scope(lambda path: self.is_constructor(module, path))
            found = []
            if made.kind == "contract":
                found = self.types_in(module, made.types, made.generic)
                for clause in made.clauses:
                    scope.term(nest(clause), frozenset(made.parameters))
            else:
                scope.declaration(made)
            return found + [(".".join(path), self.cited_by(made, path)) for path in scope.cited]
        except NotFollowed as fault:
            raise NotFollowed(f"{made.place}: {made.name}: {fault}") from None

    def cited_by(self, made, path):
        """What a name in a declaration refers to: in a contract, R.remaining is what the trait of the
        parameter R has, which must be one of the kit's."""
        if made.kind == "contract" and path[0] in made.generic:
            first, *steps = made.generic[path[0]].split("::")
            used = made.module.types_used.get(first, [""])
            if used[0] in self.kit_crates:
                return Target(".".join([*used, *steps, *path[1:]]), None)
        return self.resolve(made.module, path)

    def types_in(self, module, text, bound):
        """The structs and enums that the types in a Rattle text cite: its capitalised names, but those
        of the parameters that are types."""
        found = []
        for before, name in re.findall(r"(?:\b(\w+)::)?(?<!')\b([A-Z]\w*)", text):
            if before and module.types_used.get(before, [""])[0] in self.kit_crates:
                found.append((f"{before}.{name}", Target(".".join([*module.types_used[before], name]), None)))
            elif name in bound:
                pass
            elif name in module.items:
                found.append((name, Target(module.items[name].full_name, module.items[name])))
            elif name in module.types_used:
                crate, *rest = module.types_used[name]
                crate = module.crate if crate == "crate" else crate
                if crate not in self.crates:
                    raise NotFollowed(f"{name} is of {crate}, which is no crate here")
                where, left = self.declared(crate, rest)
                found.append((name, self.item(where, left)))
            else:
                raise NotFollowed(f"nothing is known of the type {name}")
        return found
