"""Reads antt files: the use lines and the declarations of a module.

This is not a parser of antt. It relies on the layout that `rt fmt` keeps: a declaration starts at
the indentation of its block and continues in deeper lines, its clauses start with its name, and
the only block is `module _ (..) where`. A form that it does not know raises NotFollowed or becomes
a declaration of kind "unknown", so that it cannot be passed over.
"""

import re
from functools import cached_property
from itertools import islice
from typing import NamedTuple

MARKS = {"unfoldable", "abbrev", "pub", "axiom"}
# What can start a declaration and is not followed here.
UNKNOWN = {"open", "mutual", "ruleset", "infix", "infixl", "infixr", "deriving", "axiom"}

NAME = r'[^\s(){}.;,@"«»]+'
LEXEME = re.compile(r'«[^»]*»|"(?:\\.|[^"\\])*"|[(){}.;,@]|' + NAME)


class NotFollowed(Exception):
    """A form or a name that this tool cannot follow."""


class Token(NamedTuple):
    text: str
    tight: bool  # no white space between it and the token before


class Line:
    """A line that holds code. Most are never looked into, so tokens are read when asked for."""

    def __init__(self, number, raw):
        self.number = number  # from 1
        self.raw = raw
        self.indent = len(raw) - len(raw.lstrip())

    @property
    def word(self):
        """Its first token."""
        return LEXEME.match(self.raw, self.indent).group(0)

    @cached_property
    def tokens(self):
        """Its tokens, up to a comment."""
        tokens, end = [], 0
        for found in LEXEME.finditer(self.raw):
            word, skipped = found.group(0), self.raw[end:found.start()]
            if skipped.strip():
                break
            if word.startswith("--"):
                if word.strip("-"):
                    raise NotFollowed(f"line {self.number}: is '{word}' a comment?")
                return tokens
            tokens.append(Token(word, bool(tokens) and not skipped))
            end = found.end()
        if self.raw[end:].strip():
            raise NotFollowed(f"line {self.number}: '{self.raw[end:].strip()}' is not read")
        return tokens


class Statement(NamedTuple):
    lines: list
    telescopes: list  # the tokens of the `module _ (..) where` lines around it

    def tokens(self):
        return [token for line in self.lines for token in line.tokens]

    def head(self):
        """Its first tokens: marks, a keyword or a name, and what follows."""
        words = (found for line in self.lines[:2] for found in LEXEME.finditer(line.raw))
        return [Token(found.group(0), False) for found in islice(words, 6)]


class Module:
    """A file: what it declares, and what its use lines bring in."""

    def __init__(self, path, crate, name):
        self.path = path  # relative to the root, such as crates/word/specs/Word.antt
        self.crate = crate
        self.name = name  # such as word.specs.Word
        self.text = []  # the lines as written
        self.declarations = []
        self.items = {}  # name: declaration, constructors included
        self.imports = {}  # name: (path of the module, name there)
        self.aliases = {}  # name: path of a module
        self.children = set()  # of `mod` lines
        self.passed_on = set()  # names that `pub use` lines hand on
        self.odd = []  # use lines that are not followed

    def use(self, words, public):
        """Takes in the tokens after `use`."""
        text = written(words)
        whole, brace, rest = text.partition(".{")
        if brace:
            for item in filter(None, (part.strip() for part in rest.rstrip("}").split(","))):
                source, _, other = item.partition(" as ")
                *below, name = source.split(".")
                self.imports[other or name] = (whole.split(".") + below, name)
                if public:
                    self.passed_on.add(other or name)
        elif whole.endswith("*"):
            self.odd.append(text)
        else:
            source, _, other = whole.partition(" as ")
            self.aliases[other or source.split(".")[-1]] = source.split(".")


class Declaration:
    """One declaration, as its statements: a signature and clauses, or a record, or a data type.

    The kinds are "definition", "record", "data", "unknown"; "type" for a struct or enum of a
    Rattle file; and for a root "contract" (of a Rattle function).
    """

    def __init__(self, module, kind, name, statements):
        self.module, self.kind, self.name, self.statements = module, kind, name, statements
        self.members = []  # constructors or variants
        self.types = ""  # of what Rattle declares: the part of its text that cites types
        self.group = ""  # of a root: the heading under which it is read

    @property
    def first(self):
        return self.statements[0].lines[0].number

    @property
    def last(self):
        return self.statements[-1].lines[-1].number

    @property
    def place(self):
        return f"{self.module.path}:{self.first}"

    @property
    def full_name(self):
        return f"{self.module.name}.{self.name}"

    def comment(self):
        """The number of comment lines directly above it."""
        count = 0
        while count < self.first - 1 and self.is_comment(self.first - 1 - count):
            count += 1
        return count

    def is_comment(self, number):
        return self.module.text[number - 1].lstrip().startswith(("--", "//"))

    def code(self):
        """The number of its lines that are neither empty nor comment."""
        lines = range(self.first, self.last + 1)
        return sum(bool(self.module.text[n - 1].strip() and not self.is_comment(n)) for n in lines)

    def around(self):
        """The `module _ (..) where` lines that it is below, whose parameters are its own too."""
        return [written(telescope) for telescope in self.statements[0].telescopes]

    def text(self):
        """As it is written, with the comment above it."""
        lines = self.module.text[self.first - 1 - self.comment():self.last]
        return "\n".join(self.around() + lines)

    def normal_text(self):
        """Its tokens with single blanks, a statement a line."""
        return "\n".join(self.around() + [written(part.tokens()) for part in self.statements])


def written(tokens):
    """Tokens as text, with one blank wherever there was white space."""
    return "".join(("" if t.tight else " ") + t.text for t in tokens).strip()


def read_lines(text):
    """The lines that hold code."""
    if "{-" in text:
        raise NotFollowed("a block comment")
    lines = (Line(number, raw) for number, raw in enumerate(text.split("\n"), 1) if raw.strip())
    return [line for line in lines if not line.word.startswith("--")]


def statements(lines, indent=0):
    """Groups lines into statements: each starts at the indentation of its block."""
    indents, telescopes, at = [indent], [], 0
    while at < len(lines):
        while lines[at].indent < indents[-1] and telescopes:
            indents.pop()
            telescopes.pop()
        if lines[at].indent != indents[-1]:
            raise NotFollowed(f"line {lines[at].number}: its indentation is not that of a block")
        end = at + 1
        if lines[at].word == "module":
            while lines[end - 1].tokens[-1].text != "where" and end < len(lines):
                end += 1
            if end == len(lines) or lines[end].indent <= indents[-1]:
                raise NotFollowed(f"line {lines[at].number}: a module block without content")
            telescopes.append(Statement(lines[at:end], []).tokens())
            indents.append(lines[end].indent)
        else:
            while end < len(lines) and (
                lines[end].indent > indents[-1] or lines[end].word in (")", "}")
            ):
                end += 1
            yield Statement(lines[at:end], list(telescopes))
        at = end


def unmarked(tokens):
    """The marks in front of a statement, and the tokens after them."""
    count = 0
    while count < len(tokens) and tokens[count].text in MARKS:
        count += 1
    return {token.text for token in tokens[:count]}, tokens[count:]


def declarations(module, lines, indent=0):
    """The declarations of a block; use and mod lines go into the module."""
    found = []
    for statement in statements(lines, indent):
        marks, tokens = unmarked(statement.head())
        word = tokens[0].text if tokens else ""
        if word == "use":
            module.use(unmarked(statement.tokens())[1][1:], "pub" in marks)
        elif word == "mod":
            module.children.add(tokens[1].text)
        elif found and not marks and word in ("unfolding", found[-1].name):
            found[-1].statements.append(statement)
        else:
            found.append(declaration(module, word, marks, tokens, statement))
    return found


def declaration(module, word, marks, tokens, statement):
    if word in ("record", "data"):
        made = Declaration(module, word, tokens[1].text, [statement])
        made.members = constructors(statement) if word == "data" else []
        return made
    typed = len(tokens) > 1 and tokens[1].text in (":", "{")
    known = typed and word not in UNKNOWN and "axiom" not in marks
    return Declaration(module, "definition" if known else "unknown", word, [statement])


def body(statement):
    """The statements below the `where` line of a record or data type, and the tokens above them."""
    lines = statement.lines
    for count, line in enumerate(lines, 1):
        if line.tokens[-1].text == "where":
            below = lines[count:]
            inner = list(statements(below, below[0].indent)) if below else []
            return Statement(lines[:count], []).tokens(), inner
    raise NotFollowed(f"line {lines[0].number}: a record or data type without `where`")


def constructors(statement):
    """The names in front of the colon of each constructor."""
    names = []
    for part in body(statement)[1]:
        for token in part.tokens():
            if token.text == ":":
                break
            names.append(token.text)
    return names


def read(path, crate, name, text):
    """The module of an antt file."""
    module = Module(path, crate, name)
    module.text = text.split("\n")
    try:
        module.declarations = declarations(module, read_lines(text))
    except NotFollowed as fault:
        raise NotFollowed(f"{path}: {fault}") from None
    for made in module.declarations:
        module.items[made.name] = made
        for member in made.members:
            module.items.setdefault(member, made)
    return module
