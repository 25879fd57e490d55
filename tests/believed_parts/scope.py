"""Finds the names that a text cites and does not bind itself.

What binds names in antt: `λ x (y : A) {z}.`, `(x y : A) →`, `{x : A} →`, `(x : A) ×`, `let`, the
left side of a clause, the cases of `elim`, the fields of a record type for the fields after them,
and the parameters of a record, a data type or a `module _` block. The scope of a binder ends with
its bracket, or at the next `,`, `;` or `|`.
"""

import re
from typing import NamedTuple

from .antt import NAME, NotFollowed, Token, body, declarations, unmarked

BRACKETS = {"(": ")", "{": "}", "[": "]"}
# Words of the language that cite nothing and bind nothing.
PLAIN = {"→", "×", "↔", "Type", "_"}
# Words of the language that are handled below where they are known, and refused elsewhere.
RESERVED = set(
    "data record deriving module where use mod pub package using open as unfoldable abbrev axiom"
    " unfold unfolding ruleset mutual infix infixl infixr elim let in do λ ∀ 𝕀 𝔽 coe fcoe tcoe hcom"
    " com V vin vproj inS outS ∨ ∧ : = ↦ ← | , ; .".split()
)
IS_NAME = re.compile(NAME + "|«.*»")
NUMERAL = re.compile(r"0x[0-9a-fA-F_]+|0o[0-7_]+|0b[01_]+|[0-9][0-9_]*")


class Group(NamedTuple):
    """What stands between a bracket and its partner."""

    text: str  # the opening bracket
    nodes: list


def nest(tokens):
    """Tokens with their brackets matched."""
    stack = [Group("", [])]
    for token in tokens:
        if token.text in BRACKETS:
            stack.append(Group(token.text, []))
        elif token.text in BRACKETS.values():
            group = stack.pop()
            if BRACKETS.get(group.text) != token.text:
                raise NotFollowed(f"'{token.text}' closes no bracket")
            stack[-1].nodes.append(group)
        else:
            stack[-1].nodes.append(token)
    if len(stack) != 1:
        raise NotFollowed(f"'{stack[-1].text}' is not closed")
    return stack[0].nodes


def index(nodes, text, start=0):
    """The place of the first token of this text outside brackets, or None."""
    for at in range(start, len(nodes)):
        if isinstance(nodes[at], Token) and nodes[at].text == text:
            return at
    return None


def split(nodes, separators):
    parts = [[]]
    for node in nodes:
        if isinstance(node, Token) and node.text in separators:
            parts.append([])
        else:
            parts[-1].append(node)
    return parts


def is_name(node):
    return (
        isinstance(node, Token)
        and IS_NAME.fullmatch(node.text) is not None
        and node.text not in RESERVED
        and not NUMERAL.fullmatch(node.text)
    )


class Scope:
    """Collects names in the order in which they are written, each as its path: ('words', 'word_of').

    `is_constructor` says of a path in a pattern whether it is a constructor, and so binds nothing.
    """

    def __init__(self, is_constructor):
        self.is_constructor = is_constructor
        self.cited = []

    # ---- terms

    def term(self, nodes, bound):
        for part in split(nodes, ",;|"):
            self.phrase(part, bound)

    def phrase(self, nodes, bound):
        """A term without separators: a binder in it reaches to its end."""
        at = 0
        while at < len(nodes):
            node = nodes[at]
            if isinstance(node, Group):
                bound = self.group(node, bound)
            elif node.text == "λ":
                end = self.need(nodes, ".", at)
                bound = self.binders(nodes[at + 1:end], bound)
                at = end
            elif node.text == "let":
                at, bound = self.let(nodes, at, bound)
            elif node.text == "record" and at + 1 < len(nodes) and isinstance(nodes[at + 1], Group):
                at += 1
                self.literal(nodes[at], bound)
            elif node.text == "elim":
                at = self.elim(nodes, at, bound)
            elif node.text == "." and at + 1 < len(nodes) and isinstance(nodes[at + 1], Token):
                at += 1  # a field
            elif is_name(node) and node.text not in PLAIN:
                path, at = self.path(nodes, at)
                if path[0] not in bound:
                    self.cited.append(path)
            elif node.text in RESERVED:
                raise NotFollowed(f"'{node.text}' is not followed where it stands")
            at += 1

    def need(self, nodes, text, start):
        at = index(nodes, text, start)
        if at is None:
            raise NotFollowed(f"'{nodes[start].text}' without '{text}'")
        return at

    def path(self, nodes, at):
        """The name at a place with what is tied to it by dots, and its last place."""
        path = [nodes[at].text]
        while (
            at + 2 < len(nodes)
            and isinstance(nodes[at + 2], Token)
            and nodes[at + 1] == Token(".", True)
            and nodes[at + 2].tight
        ):
            path.append(nodes[at + 2].text)
            at += 2
        return tuple(path), at

    def group(self, group, bound):
        """A bracket within a term. Gives the names that are bound after it."""
        nodes, colon = group.nodes, index(group.nodes, ":")
        if colon and group.text != "[" and all(map(is_name, nodes[:colon])):
            self.phrase(nodes[colon + 1:], bound)
            return bound | {node.text for node in nodes[:colon]}
        if group.text == "{" and index(nodes, "=") == 1:
            self.term(nodes[2:], bound)  # an implicit argument by its name
        else:
            self.term(nodes, bound)
        return bound

    def let(self, nodes, at, bound):
        """Gives the place of its `in`, and the names that are bound after it."""
        equals = self.need(nodes, "=", at)
        head, end, depth = nodes[at + 1:equals], equals, 1
        while depth:
            end += 1
            if end == len(nodes):
                raise NotFollowed("'let' without 'in'")
            text = nodes[end].text if isinstance(nodes[end], Token) else ""
            depth += (text in ("let", "unfold")) - (text == "in")
        colon = index(head, ":")
        if colon is not None:
            self.phrase(head[colon + 1:], bound)
        self.phrase(nodes[equals + 1:end], bound)
        return end, bound | self.pattern(head[:colon], plain=True)

    def literal(self, group, bound):
        """A record's literal, or a record type, whose labels are bound in what follows them."""
        for part in split(group.nodes, ";"):
            if not part:
                continue
            if len(part) < 2 or not isinstance(part[1], Token) or part[1].text not in (":", "="):
                raise NotFollowed("a record whose fields are not followed")
            self.term(part[2:], bound)
            if part[1].text == ":":
                bound = bound | {part[0].text}

    def elim(self, nodes, at, bound):
        """`elim t as M [ pattern ↦ term | .. ]`. Gives the place of the cases."""
        end = at + 1
        while end < len(nodes) and getattr(nodes[end], "text", "") != "[":
            end += 1
        if end == len(nodes):
            raise NotFollowed("'elim' without cases")
        for part in split(nodes[at + 1:end], ("as",)):
            self.phrase(part, bound)
        for case in split(nodes[end].nodes, "|"):
            arrow = self.need(case, "↦", 0)
            self.term(case[arrow + 1:], bound | self.pattern(case[:arrow]))
        return end

    # ---- binders

    def binders(self, nodes, bound):
        """Those of a λ or of a telescope. Gives all that is bound after them."""
        bound = set(bound)
        for node in nodes:
            colon = index(node.nodes, ":") if isinstance(node, Group) else None
            if colon is not None:
                self.phrase(node.nodes[colon + 1:], bound)
                node = Group(node.text, node.nodes[:colon])
            bound |= self.pattern([node], plain=True)
        return bound

    def pattern(self, nodes, plain=False):
        """The names that a pattern binds. A plain one has no constructors."""
        names, at = set(), 0
        while at < len(nodes):
            node = nodes[at]
            if isinstance(node, Group):
                label = 2 if index(node.nodes, "=") == 1 else 0
                for part in split(node.nodes, ";") if label else [node.nodes]:
                    names |= self.pattern(part[label:], plain)
            elif is_name(node) and node.text not in PLAIN:
                path, at = self.path(nodes, at)
                if not plain and self.is_constructor(path):
                    self.cited.append(path)
                else:
                    names.add(node.text)
            elif node.text not in (",", "record", "→") and node.text in RESERVED:
                raise NotFollowed(f"'{node.text}' in a pattern")
            at += 1
        return names

    # ---- declarations

    def declaration(self, made, bound=frozenset()):
        """All that a declaration cites: its blocks' parameters, its type and its body."""
        for telescope in made.statements[0].telescopes:
            bound = self.binders(nest(telescope[2:-1]), bound)
        bound = bound | {made.name}
        if made.kind in ("record", "data"):
            self.fields(made, bound)
        elif made.kind == "definition":
            bound = self.signature(made.statements[0], bound)
            for clause in made.statements[1:]:
                if clause.lines[0].word != "unfolding":
                    self.clause(made, clause, bound)
        else:
            raise NotFollowed(f"'{made.name}' begins a form that is not followed")

    def signature(self, statement, bound):
        """`name {levels} : type`. Gives what is bound in the clauses."""
        nodes = nest(unmarked(statement.tokens())[1])
        colon = self.need(nodes, ":", 0)
        bound = self.binders(nodes[1:colon], bound)
        self.phrase(nodes[colon + 1:], bound)
        return bound

    def fields(self, made, bound):
        head, parts = body(made.statements[0])
        nodes = nest(unmarked(head)[1][2:-1])
        colon = self.need(nodes, ":", 0)
        bound = self.binders(nodes[:colon], bound)
        self.phrase(nodes[colon + 1:], bound)
        for part in parts:
            nodes = nest(unmarked(part.tokens())[1])
            colon = self.need(nodes, ":", 0)
            self.phrase(nodes[colon + 1:], bound)
            if made.kind == "record":
                bound = bound | {node.text for node in nodes[:colon]}

    def clause(self, made, statement, bound):
        """`name patterns = term`, perhaps with helpers after a line `where`."""
        lines, helpers = statement.lines, []
        for count, line in enumerate(lines):
            if [token.text for token in line.tokens] == ["where"]:
                below = lines[count + 1:]
                helpers = declarations(made.module, below, below[0].indent)
                lines = lines[:count]
                break
        nodes = nest([token for line in lines for token in line.tokens])
        equals = self.need(nodes, "=", 0)
        bound = bound | self.pattern(nodes[1:equals]) | {helper.name for helper in helpers}
        self.term(nodes[equals + 1:], bound)
        for helper in helpers:
            self.declaration(helper, bound)
