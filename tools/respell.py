#!/usr/bin/env python3
"""Brings the names of the project's own definitions and lemmas to the spelling of today's library: snake case for what
is no type, a dash only at a type (as in All-append).

usage: tools/respell.py [--list]     at the top of the repository, once, right after the kit's port.py

Names that the project's .antt files declare are respelled in all .antt files, in the clauses and ghost imports of .rt
files, in must-fail edits and in backticks of comments. Functions of src/, strings, inputs and outputs keep their names.
It lists names that fall together."""
import collections
import pathlib
import re
import sys

DECLARED = re.compile(r"^(\s*)(?:(?:abbrev|unfoldable|pub|opaque)\s+)*((?:[a-z][\w\-'\u2080-\u2089]*\s+)+):(?:\s|$)")
NAME = re.compile(r"(?<![\w\-'.])[A-Za-z][\w\-'\u2080-\u2089]*")
FIELD = re.compile(r"(?<=\.)[A-Za-z][\w\-'\u2080-\u2089]*")
RECORD = re.compile(r"^(\s*)(?:pub\s+)?record\s")
# lemmas that port.py had named as a definition is named now: the lemma gives way
GAVE_WAY = {"normalform/proofs/Numbering.antt": {"own_code": "own_code_lem", "pair_code": "pair_code_lem"}}


def files(*patterns):
    for pattern in patterns:
        yield from sorted(p for p in pathlib.Path("crates").glob(pattern) if "out" not in p.parts)


def snake(word):
    return re.sub(r"(?<=[a-z0-9])([A-Z])", r"_\1", word).lower()


def respelled(name):
    parts = [p if p[:1].isupper() else snake(p) for p in name.split("-")]
    out = parts[0]
    for left, right in zip(parts, parts[1:]):
        out += ("-" if left[:1].isupper() or right[:1].isupper() else "_") + right
    return out


def declared():
    """Every declared name, and those of records' fields."""
    names, fields = set(), set()
    for path in files("*/specs/**/*.antt", "*/proofs/**/*.antt"):
        if path.name in ("Proof.antt", "Answers.antt", "Invariants.antt"):
            continue
        record = None
        for line in path.read_text(encoding="utf-8").splitlines():
            if line.strip() and record is not None and len(line) - len(line.lstrip()) <= record:
                record = None
            opened = RECORD.match(line)
            if opened:
                record = len(opened.group(1))
            found = DECLARED.match(line)
            if found:
                names.update(found.group(2).split())
                if record is not None:
                    fields.update(found.group(2).split())
    return names, fields


def renamed():
    """The new name of each name that changes. Of two that fall together, the lemma gets an ending of its own."""
    names, fields = declared()
    new = {n: respelled(n) for n in names}
    taken = collections.defaultdict(set)
    for n, m in new.items():
        taken[m].add(n)
    together = {}
    for m, ns in taken.items():
        if len(ns) > 1:
            first = next((n for n in sorted(ns) if re.search("[A-Z]", n)), m)
            for n in ns - {first}:
                if "-" in n:
                    new[n] = m + "_lem"
                else:
                    together[m] = ns
    return {n: m for n, m in new.items() if n != m}, fields, together


def replaced(text, new, fields=frozenset()):
    text = NAME.sub(lambda found: new.get(found.group(0), found.group(0)), text)
    return FIELD.sub(lambda f: new.get(f.group(0), f.group(0)) if f.group(0) in fields else f.group(0), text)


def of_antt(text, new, fields):
    out = []
    for line in text.split("\n"):
        code, dashes, comment = line.partition("-- ") if line.lstrip().startswith("--") else (line, "", "")
        comment = re.sub(r"`[^`]*`", lambda q: replaced(q.group(0), new, fields), comment)
        out.append(replaced(code, new, fields) + dashes + comment)
    return "\n".join(out)


def of_rattle(text, new, fields):
    """Ghost imports whole; elsewhere, comments aside, names in camel case alone, which only clauses have."""
    camel = {n: m for n, m in new.items() if re.search("[A-Z]", n)}
    out = []
    for line in text.split("\n"):
        if line.startswith("ghost use"):
            line = replaced(line, new, fields)
        elif line.lstrip().startswith("//"):
            line = re.sub(r"`[^`]*`", lambda q: replaced(q.group(0), camel, fields), line)
        else:
            line = replaced(line, camel, fields)
        out.append(line)
    return "\n".join(out)


def of_edit(text, new, fields):
    """The lines of an edit, as the file that they change."""
    out, how = [], of_antt
    for line in text.split("\n"):
        if line.startswith("file: "):
            how = of_rattle if line.endswith(".rt") else of_antt
        elif line.startswith(("old: ", "new: ")):
            line = line[:5] + how(line[5:], new, fields)
        out.append(line)
    return "\n".join(out)


def main():
    new, fields, together = renamed()
    if together:
        for m, ns in sorted(together.items()):
            print(f"respell: look: {' and '.join(sorted(ns))} are both {m}")
    if "--list" in sys.argv:
        for n in sorted(new):
            print(n, new[n])
        return
    for pattern, how in (("*/specs/**/*.antt", of_antt), ("*/proofs/**/*.antt", of_antt), ("*/src/**/*.rt", of_rattle),
                         ("*/must-fail/*.edit", of_edit)):
        for path in files(pattern):
            before = path.read_text(encoding="utf-8")
            text = replaced(before, GAVE_WAY.get("/".join(path.parts[1:]), {}))
            after = how(text, new, fields)
            if after != before:
                path.write_text(after, encoding="utf-8")


main()
