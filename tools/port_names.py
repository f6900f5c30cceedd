#!/usr/bin/env python3
"""Brought the repository's own definitions and lemmas to the spelling of today's Rattle, once:
types and facts in upper camel case, all else in snake case. Names of src/ and generated names stay.
It is kept so that the renaming can be done again on the commit that it began from, and refuses any other tree.

usage: python3 tools/port_names.py [--report]      at the top of that repository, after port.py
"""
import collections
import glob
import os
import re
import sys

ANTT = sorted(glob.glob("crates/*/specs/**/*.antt", recursive=True) + glob.glob("crates/*/proofs/**/*.antt", recursive=True))
RT = sorted(glob.glob("crates/*/src/**/*.rt", recursive=True))
EDITS = sorted(glob.glob("crates/*/must-fail/*.edit"))
TOKEN = re.compile(r"[^\s(){}\[\].,;:\"λ→×∷←↦|«»`@\\]+")
# where two names would fall together, or with a function of src/, one of them gets a name of its own
APART = {
    "formAt": "form_in", "weightOf": "weight_in", "stepAt": "step_in", "statesOf": "states_in", "edge-at": "edge_in_place",
    "bit-and": "bit_of_and", "bit-or": "bit_of_or", "No-lasso": "SpellsNoLasso", "One-outcome": "HasOneOutcome",
    "programCode": "program_fault_code", "programColumn": "program_fault_column", "lineCode": "line_fault_code",
    "lineColumn": "line_fault_column", "loadCode": "load_fault_code", "loadLine": "load_fault_line", "loadColumn": "load_fault_column",
}
# generated names, though they look like definitions
MADE = re.compile(r"^(\w[\w']*-)?(returns|requires|invariant|loop|decreases|overflow|bounds|join|read|offset|underflow|ensures|measure)(-.*)?$")


def words():
    """The declared names, each with whether it is a type or a fact, or a field or constructor."""
    found = collections.defaultdict(set)
    for path in ANTT:
        lone = "/specs/" in path or re.match(r"crates/\w+/proofs/\w+\.antt$", path)
        for line in open(path, encoding="utf-8"):
            line = line.rstrip("\n")
            m = re.match(r"(?:abbrev |pub |data |record |unfoldable )*([^\s:(){}.,]+)(?: \(.*\))?(?: \{.*\})?\s+:\s*(.*)$", line)
            if m and not line.startswith(" "):
                if not lone and ("goal." in m.group(2) or MADE.match(m.group(1))):
                    continue
                kind = "type" if re.search(r"Type \d( where)?$", m.group(2)) or re.match(r".*\b(data|record) ", line) else "word"
                found[m.group(1)].add((kind, path))
            m = re.match(r"\s+(?:field |pub )*([^\s:(){}.,=]+(?: [^\s:(){}.,=]+)*)\s+:\s", line)
            if m and lone:
                for name in m.group(1).split():
                    found[name].add(("member", path))
    return found


def spelled(name, kinds):
    if name in APART:
        return APART[name]
    if name[0].isupper():
        if "-" not in name:
            return name
        return "".join(part[:1].upper() + part[1:] for part in name.split("-"))
    flat = re.sub(r"(?<=[a-z0-9])([A-Z])", lambda m: "_" + m.group(1).lower(), name) if re.match(r"^[a-z][A-Za-z0-9'-]*$", name) else name
    return flat.replace("-", "_")


def main():
    if os.path.exists("docs/PORT.md"):
        print("this tree has the new names already (docs/PORT.md)")
        raise SystemExit(2)
    found = words()
    turn = {}
    for name, kinds in found.items():
        if "-" not in name and name not in APART and not re.match(r"^[a-z]+[A-Z]", name):
            continue
        if not re.match(r"^[A-Za-z0-9'-]+$", name):
            continue
        new = spelled(name, kinds)
        if new != name:
            turn[name] = new
    # what the library has under that name stays
    for path in ANTT + RT:
        for m in re.finditer(r"Rattle\.(?:std|core)\.[\w.]*\{([^}]*)\}", open(path, encoding="utf-8").read()):
            for name in re.split(r",\s*", m.group(1)):
                turn.pop(name.split(" as ")[-1], None)
    back = collections.defaultdict(list)
    for name, new in turn.items():
        back[new].append(name)
    seen = collections.defaultdict(set)
    for path in ANTT + RT:
        for token in TOKEN.findall(open(path, encoding="utf-8").read()):
            seen[token].add(path)
    for new, names in sorted(back.items()):
        if len(names) > 1 or new in found or new in seen:
            where = sorted(seen.get(new, ()))[:4]
            print(f"look: {' '.join(names)} -> {new}", "declared" if new in found else "", where)
    members = {n for n, k in found.items() if any(kind == "member" for kind, _ in k)}
    if "--report" in sys.argv:
        print(len(turn), "names")
        return

    def turned(text):
        out, last = [], 0
        for m in TOKEN.finditer(text):
            token = m.group(0)
            if token not in turn:
                continue
            before = text[:m.start()]
            if before.endswith("."):
                owner = re.search(r"([^\s(){}\[\],;]*)\.$", before).group(1).split(".")[-1]
                if owner in ("goal", "given"):
                    continue
                if not (owner[:1].isupper() or token in members):
                    continue
            out.append(text[last:m.start()])
            out.append(turn[token])
            last = m.end()
        return "".join(out) + text[last:]

    changed = 0
    for path in ANTT + RT + EDITS:
        text = open(path, encoding="utf-8").read()
        # comments keep their words
        new = "\n".join(line if re.match(r"\s*(--|//)", line) else turned(line) for line in text.split("\n"))
        if new != text:
            changed += 1
            open(path, "w", encoding="utf-8").write(new)
    pages = sorted(glob.glob("*.md") + glob.glob("docs/*.md") + glob.glob("crates/*/*.md"))
    for path in pages:
        text = open(path, encoding="utf-8").read()
        new = re.sub(r"`[^`\n]*`", lambda m: turned(m.group(0)) if "-" in m.group(0) or re.search("[a-z][A-Z]", m.group(0)) else m.group(0), text)
        if new != text:
            changed += 1
            open(path, "w", encoding="utf-8").write(new)
    # a name of the library's does not stand under another of its words
    for path in ANTT + RT:
        text = open(path, encoding="utf-8").read()
        if "AllByRecursion as All" not in text:
            continue
        lines = text.replace("AllByRecursion as All", "AllByRecursion").split("\n")
        lines = [line if re.match(r"\s*(--|//)", line) else re.sub(r"(?<![\w.'-])All(?![\w'-])", "AllByRecursion", line) for line in lines]
        changed += 1
        open(path, "w", encoding="utf-8").write("\n".join(lines))
    print(f"{len(turn)} names, {changed} files")


main()
