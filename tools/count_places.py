#!/usr/bin/env python3
"""count_places: counts the places of docs/DESIGN-PASS.md in another way than by the commands there, and names them.

usage: python3 tools/count_places.py [DIRECTORY]      the top of a checkout, else this one
Each crates/*/src/*.rt is taken apart into its functions (parameters, answer, clauses, body), enums and structs; what is asked
is asked of these, not of lines. A line of the output is: crate, kind (the page's point, and a word for the row), count, names.
"""
import collections
import glob
import os
import re
import sys

os.chdir(sys.argv[1] if len(sys.argv) > 1 else ".")
found = collections.defaultdict(collections.Counter)  # (kind, crate) -> name -> places


def closing(text, at):  # the place after the bracket that closes the one at a place
    depth = 0
    for i in range(at, len(text)):
        depth += (text[i] in "([{") - (text[i] in ")]}")
        if depth == 0:
            return i + 1
    raise ValueError(text[at : at + 60])


def parts(text):  # what stands between commas outside of all brackets
    out, depth, last = [], 0, 0
    for i, c in enumerate(text):
        depth += (c in "([{") - (c in ")]}")
        if c == "," and depth == 0:
            out, last = out + [text[last:i]], i + 1
    return [" ".join(p.split()) for p in out + [text[last:]] if p.strip()]


def items(path):  # (word, name, what it is made of) of each function, enum and struct of a file
    text = re.sub(r'b?"(?:\\.|[^"\\])*"', '""', open(path).read(), flags=re.S)
    text = re.sub(r"//[^\n]*", "", text)
    for m in re.finditer(r"\b(fn|enum|struct) (\w+)(?:<.*?(?<!-)>)?\s*([({])", text):
        word, name, end = m.group(1), m.group(2), closing(text, m.end() - 1)
        inside = parts(text[m.end() : end - 1])
        if word != "fn":
            yield word, name, {"inside": inside}
            continue
        params = [tuple(p.split(": ", 1)) if ": " in p else (p, "") for p in inside]
        answer = re.match(r"\s*->\s*([^{\n]+)", text[end:])
        end += answer.end() if answer else 0
        where = re.match(r"\s*where\b.*?(?=\s(?:requires|ensures)\b|\{)", text[end:], re.S)
        end, clauses = end + (where.end() if where else 0), []
        while c := re.match(r"\s*(requires|ensures)\b\s*(\w*)\s*\{", text[end:]):
            to = closing(text, end + c.end() - 1)
            clauses.append((c.group(1), c.group(2), text[end + c.end() : to - 1]))
            end = to
        body = "" if re.match(r"\s*;", text[end:]) else text[text.index("{", end) : closing(text, text.index("{", end))]
        yield word, name, {"params": params, "answer": (answer.group(1).strip() if answer else ""), "clauses": clauses, "body": body}


ALL = [(p.split("/")[1], p, w, n, d) for p in sorted(glob.glob("crates/*/src/*.rt")) for w, n, d in items(p)]
FUNCTIONS = [(c, p, n, d) for c, p, w, n, d in ALL if w == "fn"]
NUMBERED = {n: [k for k, _ in d["params"]].index("number") for _, _, n, d in FUNCTIONS if ("number", "u8") in d["params"]}
GROUPS = {  # parameters that travel together: all of these names in one list of parameters
    "5 xs ys corners": "xs ys corners", "5 corners mate": "corners mate", "5 xs ys alone": "xs ys !corners", "5 s order": "s order",
    "5 queue keys": "queue keys", "5 kept rim": "kept rim", "5 out at": "out at", "5 ax ay bx by": "ax ay bx by", "5 least peeled area": "least peeled area",
}
WRITTEN_OUT = ["length corners.now ≤ 6129", "length corners.now % 3 ≡ 0", "length xs.now ≡ length ys.now", "length xs.now ≤ 1024", "length mate.old ≡ 6129"]
WRITTEN_OUT += ["(s < length corners.now)", "length corners.now / 3 ≤ length kept", "hull ≡ sheet.rims", "length xs.now ≤ length rim.old"]


def note(kind, crate, name, times=1):
    found[kind, crate][name] += int(times)


def loops(body):  # (head, inner text) of each while, loop and for
    for m in re.finditer(r"\b(while|loop|for)\b([^{]*)\{", body):
        yield (m.group(1) + m.group(2)).strip(), body[m.end() - 1 : closing(body, m.end() - 1)]


for crate, path, word, name, d in ALL:
    if word == "enum" and len(d["inside"]) == 2:  # one case without a value: an Option; a case with a Refusal beside a value: a Result
        bare = sum(bool(re.fullmatch(r"\w+", v)) for v in d["inside"])
        note("1 own Option", crate, name, bare == 1)
        note("1 own Result", crate, name, bare == 0 and any("Refusal" in v for v in d["inside"]))
    if word != "fn":
        note("1 refusal number passed", crate, name, sum(v.endswith("number: u8") for v in d["inside"]))
        note("4 small types", crate, name)
        continue
    params, answer, body = d["params"], d["answer"], d["body"]
    names, kinds = [k for k, _ in params], dict(params)
    gives = " ".join(c for w, _, c in d["clauses"] if w == "ensures")
    note("1 number of places", crate, name, answer == "usize" and bool(re.search(r"result ≡ first \(|Foremost .* result", gives)))
    note("1 number of sides put", crate, name, len(re.findall(r"\.len\(\) as u16", body)))
    note("1 largest number for none yet", crate, name, len(re.findall(r"\b4294967295\b", body)))
    for v in re.findall(r"let (\w+) = (?:first_\w+\(|wide\((?:mate|onward)\[)", body):
        note("1 number of places asked", crate, name, len(re.findall(rf"\b{v} < |<= {v}\b", body)))
    note("1 65,535 for none", crate, name, len(re.findall(r"(?<!<= )\b65535", body)))
    if answer in ("u8", "u16", "usize"):
        note("1 0 for none", crate, name, len(re.findall(r"return 0\b|=> 0\b|\n    0\s*\}$", body)))
    literal = len(re.findall(r"\bnumber: \d|return -\d" + (r"|=> [1-9]\d" if answer == "u8" else ""), body))
    for m in re.finditer(r"\b(\w+)\(", body):
        if m.group(1) in NUMBERED:
            given = parts(body[m.end() : closing(body, m.end() - 1) - 1])
            literal += given[NUMBERED[m.group(1)]].isdigit() if len(given) > NUMBERED[m.group(1)] else 0
    note("1 refusal from a literal", crate, name, literal)
    note("1 refusal number passed", crate, name, params.count(("number", "u8")))
    for v in re.findall(r"let (\w+) = [^;]*(?:refusal_of\(|\w\.number;)", body):
        note("1 refusal number compared", crate, name, len(re.findall(rf"\b{v} [=!]= 0|if \d+ <= {v}\b|if {v} <= \d", body)))
    note("1 kind as a number", crate, name, sum(kinds.get(k) == t for k, t in (("order", "u8"), ("repeated", "usize"), ("shape", "u64"))))
    for v in [k for k, t in params if re.fullmatch(r"&(mut )?\[u8\]", t) and k != "out"] + re.findall(r"let mut (\w+) = \[0u8", body):
        note("1 flag as 0 or 1", crate, name, len(re.findall(rf"\b{v}\[[^\]]*\] (?:==|!=|=) [01]\b|\bfill\({v}, .*, [01]\)", body)))
    note("1 bool beside a value", crate, name, answer == "bool" and any(t.startswith("&mut") or t.endswith("Print") for t in kinds.values()))
    note("2 place written out", crate, name, len(re.findall(r"/ 3 \* 3 \+", body)))
    for head, inner in loops(body):
        v = re.match(r"while (?:0 < )?([a-z]\w*)", head)  # what is compared grows or falls by one in the loop
        note("3 index by hand" if v and re.search(rf"\b{v.group(1)} [+-]= 1;", inner) else "3 other loops", crate, name)
    choice = re.fullmatch(r"\{\s*if ([\w <]+) \{\s*(?:return )?[\w +-]+;?\s*\}(?: else \{[\w +-]+\})?\s*\w*\s*\}", body)
    note("3 choice by hand", crate, name, bool(choice))
    note("4 casts wider", crate, name, len(re.findall(r"\bas\s+(?:usize|u64|u32|i64|i32|f64)\b", body)))
    note("4 casts narrower", crate, name, len(re.findall(r"\bas\s+(?:u16|u8)\b", body)))
    if len(params) == 1 and re.fullmatch(r"\{\s*(?:0 - )?\(?\w+ as \w+\)?\s*\}", body):
        note("4 own conversion", crate, name)
    equal = answer == "bool" and re.fullmatch(r"\{.*==[^=|]*&[^=|]*==[^=|]*\}", body, re.S)
    before = answer == "bool" and {"s", "r"} <= set(names)
    note("4 equality and order", crate, name, bool(equal or before or re.search(r"\* 16384 \+", body)))
    note("4 printing", crate, name, answer == "usize" and kinds.get("out") == "&mut [u8]")
    for kind, group in GROUPS.items():
        note(kind, crate, name, all((k[1:] not in names) if k[0] == "!" else k in names for k in group.split()))
    text = " ".join(c for w, _, c in d["clauses"] if w == "requires")
    facts = set(re.findall(r"\b(?:Plotted|Mated|Acceptable|Small|Numbered|State|Heap|Single|Leaving)\b(?!\.)", text))
    facts |= {w for k, w, _ in d["clauses"] if k == "requires" and w in ("by_index", "mate_value")}
    facts |= {f for f in WRITTEN_OUT if f in text} | ({"at in s"} if re.search(r"\bat( \+ [^≤]*)? ≤ length s\.now", text) else set())
    for fact in facts:
        note("5 fact " + fact, crate, name)
    sized = [k for k in ("n", "m", "k", "count", "points", "waiting", "to") if kinds.get(k) == "usize"]
    note("6 buffer and count", crate, name, bool(sized) and any("[" in t for t in kinds.values()))
    note("6 fixed arrays lent", crate, name, sum(bool(re.match(r"&(mut )?\[\w+; \w+\]", t)) for t in kinds.values()))
    note("7 tables and switches", crate, name, len(re.findall(r"\bfn\(|\bdyn\b|\bFn\w*\(", str(params) + body)) + len(re.findall(r"\n\s*\d+ =>", body)))

shapes = collections.defaultdict(list)  # functions whose bodies are the same but for names, types, numbers and arguments
for crate, path, name, d in FUNCTIONS:
    text = re.sub(r"\b(?!let|mut|while|if|else|return|match|true|false|as)\w+\b", "x", d["body"])
    while (less := re.sub(r"x(::x|\.x|\([^()]*\)|\[[^\[\]]*\])", "x", text)) != text:
        text = less
    shapes[" ".join(text.split()), len(d["params"]) > 0].append((crate, os.path.basename(path)[:-3], name))
for (text, _), group in sorted(shapes.items(), key=lambda s: s[1]):
    if len(group) > 1 and text != "{ x }":
        print("2 same shape:", ", ".join("%s/%s %s" % g for g in group))
for (kind, crate), names in sorted((k, +v) for k, v in found.items() if +v):
    print(f"{crate:9} {kind:28} {sum(names.values()):3}  " + ", ".join(n if k == 1 else f"{n} ({k})" for n, k in names.items()))
