#!/usr/bin/env python3
"""Brings this repository's own definitions and lemmas to today's spelling: words in snake case.

usage: python3 tools/respell.py [TOP]    once, after /opt/rattle/port/port.py, at the top of the repository (or at TOP)

It goes over every name that a file of specs/ or proofs/ declares: `firstNotApart` becomes `first_not_apart`, `reads-exactly` becomes
`reads_exactly`. Types, facts and modules, the functions of src/, and names that Rattle or its library make keep theirs. It turns .antt and
.rt files alone, their comments and strings aside, prints old and new names that fall together in a file, and writes the table of old and
new names to /tmp/respelled.tsv.
"""
import os
import re
import sys

PARTS = re.compile(r"([\s(){}.;,@]+)")
DECLARES = re.compile(r"^(?P<words> *(?:(?:pub|abbrev|unfoldable|infixl \d+|infixr \d+|infix \d+)\s+)*)(?P<name>[^\s(){}.;,:]+)(?:\s+[^:]*?)?\s:\s")
KEYWORDS = {"use", "module", "record", "data", "mutual", "let", "in", "infixl", "infixr", "infix", "λ", "--"}
# Lemmas that port.py had already spelled like the definition that they are about.
LEMMAS = {"is_live": "is_live_lem", "is_digit": "is_digit_lem"}


def snake(name):
    if re.match(r"[A-Z]", name) and "-" not in name and "_" not in name and "·" not in name:
        return name
    name = name.replace("·", "_")
    if re.match(r"[A-Z][A-Za-z]*-", name):
        return name
    out = re.sub(r"(?<=[a-z0-9])([A-Z])", lambda m: "_" + m.group(1).lower(), name)
    return re.sub(r"(?<=[a-z0-9'])-(?=[a-zA-Z0-9])", "_", out)


def files(top):
    for folder, dirs, names in os.walk(os.path.join(top, "crates")):
        dirs[:] = sorted(d for d in dirs if d != "out")
        for n in sorted(names):
            if n.endswith((".antt", ".rt")):
                yield os.path.join(folder, n)


def is_shared(path):
    """A file of specs/, or a file of lemmas right in proofs/."""
    folder = os.path.basename(os.path.dirname(path))
    return path.endswith(".antt") and folder in ("specs", "proofs")


def declared(text):
    for line in text.split("\n"):
        m = DECLARES.match(line)
        if m and m.group("name") not in KEYWORDS:
            yield m.group("name"), line


def table(top):
    own, made, all_names = {}, {}, set()
    for p in files(top):
        if not p.endswith(".antt"):
            continue
        text = open(p, encoding="utf-8").read()
        for name, line in declared(text):
            if is_shared(p):
                all_names.add(name)
                new = snake(name)
                if new != name:
                    own[name] = new
            else:
                if "Need-" in line or name.endswith("-spec") or "tie." in line or re.search(r"lts\.", line):
                    made.setdefault(p, set()).add(name)
    # a lemma that would have its definition's name gets _lem
    functions = {new for old, new in own.items() if "-" not in old} | {n for n in all_names if "-" not in n}
    for old in own:
        if "-" in old and own[old] in functions:
            own[old] += "_lem"
    own.update(LEMMAS)
    return own, made


def code_and_rest(line, mark):
    """The parts of a line: code, and what is neither turned nor read (strings, the comment)."""
    out, i, start = [], 0, 0
    while i < len(line):
        if line.startswith(mark, i) and (i == 0 or line[i - 1].isspace()):
            out.append((line[start:i], True))
            out.append((line[i:], False))
            return out
        if line[i] == '"':
            j = i + 1
            while j < len(line) and line[j] != '"':
                j += 2 if line[j] == "\\" else 1
            out.append((line[start:i], True))
            out.append((line[i:j + 1], False))
            i = start = j + 1
            continue
        i += 1
    out.append((line[start:], True))
    return out


def turned(text, own, made, mark, used):
    lines = []
    for line in text.split("\n"):
        parts = []
        for part, code in code_and_rest(line, mark):
            if code:
                words = PARTS.split(part)
                for k in range(0, len(words), 2):
                    w = words[k]
                    if not w:
                        continue
                    if w in own and w not in made:
                        used[w] = own[w]
                        words[k] = own[w]
                    else:
                        used.setdefault(w, w)
                part = "".join(words)
            parts.append(part)
        lines.append("".join(parts))
    return "\n".join(lines)


def main():
    top = sys.argv[1] if len(sys.argv) > 1 else "."
    own, made = table(top)
    # ◌orElse◌ is an operator: port.py turned its uses
    for old in [o for o in own if o.startswith("◌") and o.endswith("◌")]:
        own.setdefault(old.strip("◌"), own[old].strip("◌"))
    for p in files(top):
        text = open(p, encoding="utf-8").read()
        used = {}
        new = turned(text, own, made.get(p, set()), "//" if p.endswith(".rt") else "--", used)
        back = {}
        for o, n in used.items():
            back.setdefault(n, set()).add(o)
        for n, os_ in back.items():
            if len(os_) > 1:
                print(f"falls together: {os.path.relpath(p, top)}: {', '.join(sorted(os_))} -> {n}")
        if new != text:
            open(p, "w", encoding="utf-8").write(new)
    with open("/tmp/respelled.tsv", "w", encoding="utf-8") as f:
        for o in sorted(own):
            f.write(f"{o}\t{own[o]}\n")
    print(f"respell: {len(own)} names")


if __name__ == "__main__":
    main()
