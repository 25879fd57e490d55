"""Reads Rattle files: structs and enums, and functions with their contracts.

A contract is the clauses `requires { .. }` and `ensures { .. }`, each perhaps with a name before its
brace, between a function's signature and its body. What is within their braces is antt, in which the
function's parameters are bound, and `result`.
"""

import re

from .antt import Declaration, Line, Module, NotFollowed, Statement

# Comments, and literals, which could hold a bracket.
HIDDEN = re.compile(r"""//[^\n]*|/\*.*?\*/|"(?:\\.|[^"\\])*"|'(?:\\.|[^'\\\n])'""", re.S)
USE = re.compile(r"^[ \t]*(pub )?(ghost )?use ([^;]+);", re.M)
MOD = re.compile(r"^[ \t]*(pub )?mod (\w+);", re.M)
ATTRIBUTES = r"^(?:[ \t]*#\[[^\n]*\]\n)*[ \t]*"
TYPE = re.compile(ATTRIBUTES + r"(?:pub )?(struct|enum) (\w+)", re.M)
FUNCTION = re.compile(
    ATTRIBUTES + r'(?P<public>pub )?(?P<c>extern "[^"]*" )?fn (?P<name>\w+)', re.M)
CONTRACT = re.compile(r"\b(?:requires|ensures)\b(?:\s+\w+)?\s*\{|\{")
CLAUSE = re.compile(r"\s*(requires|ensures)\b(?:\s+\w+)?\s*\{")
PARAMETER = re.compile(r"(\w+)\s*:(?!:)")
BOUND = re.compile(r"(\w+)\s*:(?!:)\s*(\w+(?:::\w+)*)")
USED = re.compile(r"((?:\w+::)*)(?:(\w+)|\{([\w, ]+)\})")


class Function(Declaration):
    """A function: its signature and the clauses of its contract, as a root of what is believed."""

    def __init__(self, module, name, public, exported):
        super().__init__(module, "contract", name, [])
        self.public, self.exported = public, exported
        self.clauses = []  # the tokens within the braces of each
        self.parameters = set()
        self.generic = {}  # the parameters that are types, with the trait of each


class RattleModule(Module):
    def __init__(self, path, crate, name):
        super().__init__(path, crate, name)
        self.code = ""  # the text without comments
        self.bare = ""  # and without literals, in which brackets match
        self.functions = []
        self.types_used = {}  # name: its path, of the use lines that are not ghost
        self.public_modules = set()


def without(text, comments_alone):
    """The text with blanks for comments, and for literals too unless comments alone are meant. It
    keeps its length, so that a place in it is the same place in the file."""
    def blanks(hidden):
        keep = hidden.group(0) == '"C"' or comments_alone and hidden.group(0)[0] != "/"
        return hidden.group(0) if keep else re.sub(r"[^\n]", " ", hidden.group(0))
    return HIDDEN.sub(blanks, text)


def closing(code, start):
    """The place of the bracket that closes the one at `start`."""
    depth = 0
    for at in range(start, len(code)):
        depth += (code[at] in "({[") - (code[at] in ")}]")
        if depth == 0:
            return at
    raise NotFollowed("a bracket is not closed")


def statement(code, start, end):
    """A part of the text as one statement."""
    first = code.count("\n", 0, start) + 1
    lines = enumerate(code[start:end].split("\n"), first)
    return Statement([Line(number, raw) for number, raw in lines if raw.strip()], [])


def skip_blank(code, at):
    while code[at].isspace():
        at += 1
    return at


def read_type(module, bare, found):
    """A struct or an enum, to its closing brace or semicolon."""
    start, at = skip_blank(bare, found.start()), found.end()
    while bare[at] not in "{(;":
        at += 1
    end = closing(bare, at) + 1 if bare[at] in "{(" else at + 1
    made = Declaration(module, "type", found.group(2), [statement(module.code, start, end)])
    made.types = bare[at:end]
    if found.group(1) == "enum":
        outside, made.types = by_brackets(bare[at + 1:end - 1])
        made.members = re.findall(r"\w+", outside)
    return made


def by_brackets(text):
    """The text outside all brackets, and the text within."""
    outside, inside, depth = "", "", 0
    for letter in text:
        depth += (letter in "({[") - (letter in ")}]")
        outside += " " if depth else letter
        inside += letter if depth else " "
    return outside, inside


def past_generics(bare, at):
    """The place after the type parameters, whose bounds can have brackets and arrows."""
    if bare[at] != "<":
        return at
    depth = 0
    for place in range(at, len(bare)):
        depth += (bare[place] == "<") - (bare[place] == ">" and bare[place - 1] != "-")
        if depth == 0:
            return place + 1
    raise NotFollowed("type parameters are not closed")


def read_function(module, bare, found):
    """A function's signature and clauses, to the brace of its body."""
    made = Function(module, found["name"], bool(found["public"]), bool(found["c"]))
    opening = bare.index("(", past_generics(bare, found.end()))
    closed = closing(bare, opening) + 1
    at = CONTRACT.search(bare, closed).start()
    if not re.fullmatch(r"(?: ->[^\n]*)?\s*", bare[closed:at]):
        raise NotFollowed(f"{module.path}: the signature of {made.name} is not followed")
    made.parameters = set(PARAMETER.findall(bare[opening:closed])) | {"self", "result"}
    made.types = bare[opening:at]
    made.generic = dict(BOUND.findall(bare[found.end():opening]))
    while clause := CLAUSE.match(bare, at):
        end = closing(bare, clause.end() - 1)
        made.clauses.append(statement(module.code, clause.end(), end).tokens())
        at = end + 1
    if bare[skip_blank(bare, at)] not in "{;":  # a body, or the end of a trait's method
        raise NotFollowed(f"{module.path}: the contract of {made.name} is not followed")
    made.statements = [statement(module.code, skip_blank(bare, found.start()), at)]
    return made


def read(path, crate, name, text):
    """The module of a Rattle file."""
    module = RattleModule(path, crate, name)
    module.text = text.split("\n")
    module.code = without(text, comments_alone=True)
    module.bare = bare = without(text, comments_alone=False)
    for found in USE.finditer(bare):
        words = " ".join(found.group(3).split())
        if found.group(2):
            module.use(Line(0, words).tokens, bool(found.group(1)))
        elif used := USED.fullmatch(words):
            for name in (used[2] or used[3]).replace(",", " ").split():
                module.types_used[name] = [*used[1].split("::")[:-1], name]
    for public, child in MOD.findall(bare):
        module.children.add(child)
        if public:
            module.public_modules.add(child)
    module.declarations = [read_type(module, bare, found) for found in TYPE.finditer(bare)]
    module.functions = [read_function(module, bare, found) for found in FUNCTION.finditer(bare)]
    if len(module.functions) != len(re.findall(r"\bfn\b", bare)):
        raise NotFollowed(f"{path}: not every function is read")
    for made in module.declarations:
        module.items[made.name] = made
    return module
