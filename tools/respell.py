#!/usr/bin/env python3
"""respell: brings the names of definitions, fields, constructors and lemmas of crates/ to snake case.

usage: python3 tools/respell.py [--list]      at the top of the repository, once, after the kit's port.py

A name of a definition, a field or a constructor has no dash afterwards. A lemma's name keeps its dashes where all its parts are
words of the library or of the crate of laws, as in `length-take`; else they become `_`. A capital inside a name that begins small
becomes `_` and a small letter. Names that the check makes (the goals of a Proof.antt, the fields of what is known there), names
of the toolchain's library and names of src/ stay. In .rt files only ghost imports and clauses are read, in pages and comments
only what stands between backquotes. --list prints the pairs and writes nothing.
"""
import glob
import os
import re
import sys

WORD = re.compile(r"(?<![\w'′₀-₉-])[^\W\d][\w'′₀-₉]*(?:-[\w'′₀-₉*≤<+]+)*(?![\w'′₀-₉-])")
KIT = set("length take drop get_or set sets map append replicate zip add mul sub le lt suc zero eq div mod abs pos neg cond not and or sum count if_ true false none some".split())
# Names that would fall together with another one, name a word of the library that has another name now, or stand with their parameters before the colon.
APART = {"on-grid": "unrefused_on_grid", "onGrid": "is_on_grid", "at-triangle": "at_triangle", "low-first": "first_of_low", "getD-table": "get_or-table", "getD-walk": "get_or-walk"}


def files(*patterns):
    return sorted({p for pat in patterns for p in glob.glob(pat, recursive=True) if "/out/" not in p and "/target/" not in p})


def snake(name):
    return name if name[:1].isupper() else re.sub(r"(?<=[a-z0-9])([A-Z])(?=[a-z0-9]|$|-|_|')", lambda m: "_" + m.group(1).lower(), name)


def declared(path):
    """The names that a file declares: pairs of a name and its kind (type, definition, field, lemma)."""
    kind_of_block = None
    own_goals = set()
    text = open(path).read()
    if path.endswith("Proof.antt"):
        own_goals = set(re.findall(r"(?m)^(?:abbrev |pub )*(\S+) : (?:tie\.|\{M : Type 1\} → statement)", text))
    for line in text.split("\n"):
        if line.lstrip().startswith("--"):
            continue
        block = re.match(r"^((?:abbrev |unfoldable |pub )*)(record|data) (\S+)", line)
        if block:
            kind_of_block = block.group(2)
            yield block.group(3), "type"
            continue
        inner = re.match(r"^(\s+)((?:abbrev |unfoldable |pub )*)([^\s(){}:,;]+) :(?: |$)", line)
        outer = re.match(r"^((?:abbrev |unfoldable |pub |ruleset )*)([^\s(){}:,;]+) :(?: |$)", line)
        if re.match(r"^ruleset|^pub ruleset", line):
            m = re.match(r"^(?:pub )?ruleset (?:pub )?([^\s=:]+)", line)
            if m:
                yield m.group(1), "definition"
            continue
        if inner:
            name, marks = inner.group(3), inner.group(2)
            if "abbrev" in marks or "unfoldable" in marks:
                yield name, "definition"
            elif kind_of_block and (kind_of_block == "data" or "pub" in marks):
                yield name, "field"
            else:
                yield name, "lemma"
        elif outer:
            kind_of_block = None
            name, marks = outer.group(2), outer.group(1)
            if name in own_goals:
                continue
            yield name, "definition" if "abbrev" in marks or "unfoldable" in marks or "ruleset" in marks else "lemma"
        elif line[:1].strip() and not line.startswith(" "):
            if not re.match(r"^module _", line):
                kind_of_block = None if not block else kind_of_block


def main():
    own = {}
    antt = files("crates/*/specs/**/*.antt", "crates/*/proofs/**/*.antt")
    for p in antt:
        for name, kind in declared(p):
            if "-" in name or snake(name) != name or kind in ("definition", "type"):
                own.setdefault(name, set()).add(kind)
    for p in antt:
        for name in re.findall(r" as ([^\s,}]*-[^\s,}]*)", "\n".join(l for l in open(p).read().split("\n") if l.startswith("use Rattle."))):
            own.setdefault(name, set()).add("definition")
    laws = {n for p in files("crates/laws/specs/*.antt") for n, k in declared(p) if k == "definition"}
    plain = {snake(n) for n in laws | KIT if "-" not in n}

    def new(name, kinds):
        name = snake(name)
        if name[:1].isupper() and "-" not in name:
            return name
        parts = name.split("-")
        joins = not kinds & {"definition", "field", "type"} and all(part in plain for part in parts)
        return name if joins else "_".join(parts)

    for name in APART:
        own.setdefault(name, set()).add("definition")
    table = {n: APART.get(n) or new(n, k) for n, k in own.items()}
    table = {a: b for a, b in table.items() if a != b}
    back = {}
    for a, b in table.items():
        if b in back:
            sys.exit("respell: %s and %s would both be %s" % (back[b], a, b))
        back[b] = a
    # names that stand already
    for p in antt + files("crates/*/src/**/*.rt"):
        for m in WORD.finditer(open(p).read()):
            if m.group(0) in back:
                print("look: %s has %s already, which %s becomes" % (p, m.group(0), back[m.group(0)]))
    if "--list" in sys.argv:
        for a in sorted(table):
            print(a, table[a])
        return

    def turn(text, skip=()):
        return WORD.sub(lambda m: table.get(m.group(0), m.group(0)) if m.group(0) not in skip else m.group(0), text)

    def quoted(text):
        return re.sub(r"`[^`\n]*`", lambda m: turn(m.group(0)), text)

    for p in antt:
        text = open(p).read()
        theirs = set()
        for m in re.finditer(r"(?m)^use (\S+)\.\{(.*)\}$", text):
            if not re.match(r"Rattle\.(%s)\." % "|".join(os.listdir("crates")), m.group(1)):
                theirs |= {x.split(" as ")[-1].strip() for x in m.group(2).split(",")}
        if p.endswith("Proof.antt"):
            theirs |= set(re.findall(r"(?m)^(?:abbrev |pub )*(\S+) : (?:tie\.|\{M : Type 1\} → statement)", text))
        clash = theirs & set(table)
        if clash:
            print("look: %s: not renamed there, since the library or a goal has them: %s" % (p, " ".join(sorted(clash))))
        lines = []
        for line in text.split("\n"):
            if line.lstrip().startswith("--"):
                lines.append(quoted(line))
            elif line.startswith("use ") and not re.match(r"use Rattle\.(%s)\." % "|".join(os.listdir("crates")), line):
                lines.append(line)
            else:
                code, dash, comment = line.partition(" -- ")
                code = re.sub(r"tie\.[\w'-]+", lambda m: m.group(0).replace("-", "\0"), code)
                lines.append(turn(code, theirs).replace("\0", "-") + dash + quoted(comment))
        open(p, "w").write("\n".join(lines))
    for p in files("crates/*/src/**/*.rt"):
        text = open(p).read()
        out, depth, inside = [], 0, False
        for line in text.split("\n"):
            stripped = line.strip()
            if stripped.startswith("//"):
                out.append(quoted(line))
                continue
            if stripped.startswith("ghost use "):
                out.append(turn(line))
                continue
            if not inside and re.match(r"(requires|ensures|ghost|invariant)\b", stripped):
                inside, depth = True, 0
            if inside:
                depth += line.count("{") - line.count("}")
                out.append(turn(line))
                if depth <= 0:
                    inside = False
            else:
                out.append(line)
        open(p, "w").write("\n".join(out))
    for p in files("*.md", "docs/**/*.md", "harness/*.md"):
        text = open(p).read()
        open(p, "w").write(quoted(text))


main()
