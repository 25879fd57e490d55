#!/usr/bin/env python3
"""Brings the repository's own names in antt to Rattle's spelling: words in snake case, as `bit_at` for `bitAt` and `told_same` for `told-same`.

    tools/spelling.py --propose    writes spelling.tsv beside this file, from what the crates declare, and prints the names that fall together
    tools/spelling.py              applies spelling.tsv to the crates below this folder, once

It goes by words. A name that Rattle makes for a proof (`goal.returns-then-c`, `c.step.ensures`) is none of ours and stays. Functions of src/, exported
names, strings and comments of code keep theirs, but a comment's word in backticks that is a name of the table is turned with it.
"""

import glob
import os
import re
import sys
from collections import Counter, defaultdict

HERE = os.path.dirname(os.path.realpath(__file__))
TABLE = os.path.join(HERE, "spelling.tsv")
W = r"[^\s(){}.;,@\"«»\[\]\\`]+"
DECLARED = re.compile(
    r"^(\s*)((?:(?:pub|abbrev|unfoldable) +)*)(record |data |ruleset )?(" + W + r")((?: [({].*[)}])? :(?: |$)|(?: [({].*)? where)"
)
ALIAS = re.compile(r"^\s*(?:ghost )?use .* as (" + W + r");?\s*$")
CAMEL = re.compile(r"[a-z]+[a-z0-9]*[A-Z]")
LOCAL = re.compile(r"[a-z]{2,}[A-Z][a-z]+")
KEPT = {"getD'"}
# Names that would fall together with another, or read badly, so chosen by hand.
CHOSEN = {
    "cutOut": "cut_from",
    "firstOne": "first_set",
    "inOrder": "put_in_order",
    "fieldsIn": "fields_from",
    "eight-end": "eight_end_is",
    "ten-end": "ten_end_is",
    "spare-empty": "spare_is_empty",
    "bitIn": "bit_in",
    "carriedOn": "carried_on",
    "placeAt": "place_at",
    "standsAt": "stands_at",
}


def files(root):
    for end in (".antt", ".rt"):
        for part in ("specs", "proofs", "src"):
            for p in sorted(glob.glob(f"{root}/crates/*/{part}/**/*{end}", recursive=True)):
                yield p


def code_of(text, antt):
    return re.sub(r"(?m)(^|(?<=\s))--(\s.*)?$", "", text) if antt else re.sub(r"//.*", "", text)


def snake(name):
    name = name.replace("getD", "get_or").replace("-", "_").replace("formula's", "formula")
    name = re.sub(r"(?<=[a-z0-9])([A-Z])", lambda m: "_" + m.group(1).lower(), name)
    return name[0] + name[1:] if name[0].isupper() else name


def propose(root):
    kinds, where, words = defaultdict(set), defaultdict(set), {}
    for p in files(root):
        text = open(p, encoding="utf-8").read()
        antt = p.endswith(".antt")
        code = code_of(text, antt)
        words[p] = Counter(re.findall(W, code))
        if not antt:
            continue
        for line in code.split("\n"):
            m = ALIAS.match(line)
            if m:
                kinds[m.group(1)].add("alias")
                where[m.group(1)].add(p)
            m = DECLARED.match(line)
            if m and not p.endswith("/Proof.antt"):
                indent, marks, kind, name = len(m.group(1)), m.group(2), m.group(3), m.group(4)
                kinds[name].add("field" if indent and "pub" in marks and not kind else "definition" if "abbrev" in marks or "unfoldable" in marks else "type" if kind else "lemma")
                where[name].add(p)
        if "/specs/" in p or not p.endswith("/Proof.antt"):
            for w in words[p]:
                if LOCAL.fullmatch(w) and w not in kinds:
                    kinds[w].add("local")
    turned = {}
    for n, k in sorted(kinds.items()):
        if n in KEPT or n.startswith("Need-"):
            continue
        if "-" in n or CAMEL.match(n):
            turned[n] = CHOSEN.get(n) or snake(n)
    # A lemma that would have its definition's name gets _lem; so does one of two that fall together.
    taken = defaultdict(list)
    for n, new in turned.items():
        taken[new].append(n)
    for n in kinds:
        if n not in turned:
            taken[n].append(n)
    clash = []
    for new, olds in sorted(taken.items()):
        if len(olds) < 2:
            continue
        rank = lambda o: (o in turned, "definition" not in kinds[o], "field" not in kinds[o], "-" in o)
        olds = sorted(olds, key=rank)
        for o in olds[1:]:
            if o in turned and o not in CHOSEN:
                turned[o] = new + "_lem"
        clash.append((new, [(o, sorted(kinds[o]), turned.get(o, o)) for o in olds]))
    # The new name must be no word of a file in which the old one stands.
    all_words = set()
    for p in words:
        all_words |= set(words[p])
    shadows = []
    for n, new in sorted(turned.items()):
        for p, ws in words.items():
            if n in ws and new in ws:
                shadows.append((n, new, os.path.relpath(p, root), ws[n], ws[new], sorted(kinds[n])))
    with open(TABLE, "w", encoding="utf-8") as f:
        for n, new in sorted(turned.items()):
            f.write(f"{n}\t{new}\t{' '.join(sorted(kinds[n]))}\n")
    print(f"{len(turned)} names")
    print(f"{len(clash)} fall together:")
    for c in clash:
        print("  ", c)
    print(f"{len(shadows)} meet a word of their file:")
    for s in shadows:
        print("  ", s)


def main(argv):
    root = os.getcwd()
    if argv == ["--propose"]:
        return propose(root)
    rows = [l.rstrip("\n").split("\t") for l in open(TABLE, encoding="utf-8")]
    table = {a: b for a, b, _ in rows}
    fields = {a for a, _, k in rows if "field" in k}
    token = re.compile(W)
    made = re.compile(r"(?:^|[^\w.])(?:c|w|l|goal|tie|lts)(?:\." + W + r")*\.$")
    n = 0
    for p in files(root):
        text = open(p, encoding="utf-8").read()
        antt = p.endswith(".antt")
        lines = text.split("\n")
        for i, line in enumerate(lines):
            m = re.search(r"(^|(?<=\s))--(\s|$)" if antt else r"//", line)
            at = m.start() if m else len(line)
            code, comment = line[:at], line[at:]

            def turn(m):
                w = m.group(0)
                if w not in table:
                    return w
                before = code[: m.start()]
                if before.endswith(".") and p.endswith(("/Proof.antt", "/Answers.antt", "/Invariants.antt")) and w not in fields and made.search(before):
                    return w
                return table[w]

            code = token.sub(turn, code)
            comment = re.sub(r"`(" + W + r")`", lambda m: "`" + table.get(m.group(1), m.group(1)) + "`", comment)
            lines[i] = code + comment
        new = "\n".join(lines)
        if new != text:
            open(p, "w", encoding="utf-8").write(new)
            n += 1
    print(f"{n} files")


if __name__ == "__main__":
    main(sys.argv[1:])
