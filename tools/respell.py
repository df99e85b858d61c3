#!/usr/bin/env python3
"""Brings the repository's own names in specs/ and proofs/ to the spelling of today's Rattle.

usage: tools/respell.py [ROOT] [--check] [--table FILE]

Values, lemmas and fields are in snake case. A dash joins two names, as in length-padded; a plain word is added with '_', as in
padded_only. Names of functions of src/, of the library and of what a check makes keep their spelling. It went over the tree
once, right after port.py; ROOT is another tree to go over, FILE takes the table, old and new. With --check nothing is written.
"""
import collections
import json
import os
import re
import sys

WORD = re.compile(r'[^\s(){}.;,@"«»]+')
DECLARED = re.compile(r'^(\s*)((?:pub |abbrev |unfoldable |record |data |mod )*)([^\s(){}.;,@"«»:]+(?: [^\s(){}.;,@"«»:]+)*)((?: *\([^)]*\)| *\{[^}]*\})*) +:(?: |$)')
# words of the library that a lemma of ours may be about, beside our own definitions
LIBRARY = set("length append take drop set map replicate get_or add mul sub div rem le lt eq ne eqb leb ltb and or not cond min max suc pow reverse".split())
def antt_files(root):
    for folder, dirs, files in os.walk(os.path.join(root, "crates")):
        dirs[:] = sorted(d for d in dirs if d != "out")
        for f in sorted(files):
            if f.endswith((".antt", ".rt")):
                yield os.path.join(folder, f)


def snake(word):
    return re.sub(r"(?<=[a-z0-9])([A-Z])", lambda m: "_" + m.group(1).lower(), word) if word[:1].islower() else word


def declared(path):
    """Yields the names that a file of specs/ or proofs/ declares: each, whether it is a field or a constructor, a goal, alone on its line."""
    for line in open(path, encoding="utf-8"):
        m = DECLARED.match(line)
        for name in m.group(3).split(" ") if m and not m.group(3).startswith("--") else []:
            yield name, m.group(1) != "", " tie." in line or " goal." in line, " " not in m.group(3)


def table(root):
    own, fields, foreign, defs, tops, taken = set(), set(), set(), set(), set(), set()
    for path in antt_files(root):
        text = open(path, encoding="utf-8").read()
        for m in re.finditer(r"(?m)^(?:pub |ghost )?use ([^\s{]+?)(?:\.\{([^}]*)\})?(?: as \S+)?;?$", text):
            if not m.group(1).startswith("Rattle.") or m.group(1).startswith("Rattle.std"):
                foreign |= set(WORD.findall(m.group(2) or ""))
        if path.endswith(".rt"):
            continue
        taken |= {m.group(0) for m in WORD.finditer(text) if text[m.end() : m.end() + 1] != "." and not text[: m.start()].endswith("proofs.")}
        for name, inner, goal, alone in declared(path):
            if not goal and not (path.endswith("/Proof.antt") and inner is False and goal):
                own.add(name)
                if inner:
                    fields.add(name)
                else:
                    tops.add(name)
                if "/specs/" in path and alone:
                    defs.add(snake(name))
    names = {d for d in defs if "-" not in d} | {n for n in own if n[:1].isupper()} | LIBRARY

    def spelled(name):
        words = [snake(w) for w in name.split("-")]
        parts, at = [], 0
        while at < len(words):
            for end in range(len(words), at, -1):
                part = "_".join(words[at:end])
                if part in names or end == at + 1:
                    parts.append(part)
                    at = end
                    break
        out = parts[0]
        for a, b in zip(parts, parts[1:]):
            out += ("-" if a in names and b in names else "_") + b
        return out

    rows = {}
    for name in sorted(own - foreign):
        if not re.match(r"^[A-Za-z0-9'_-]+$", name) or name[0].isupper() and "-" not in name:
            continue
        new = spelled(name)
        if new != name:
            rows[name] = new
    def ending(name):
        return "_is" if name in fields and name not in tops else "_lem"

    # a lemma, or a field or a local fact, that would fall together with another name gets an ending
    counts = collections.Counter(rows.values())
    for name, new in rows.items():
        if "-" in name and (counts[new] > 1 or new in taken):
            rows[name] = new + ending(name)
    for name in own & {new for name, new in rows.items() if "-" not in name}:
        rows[name] = name + ending(name)
    return rows, fields


def turned(text, rows, fields, code):
    out, end = [], 0
    modules = set(re.findall(r"(?m)^(?:pub )?use (?:\S+ as |[^\s{]*\.)([^\s{};.]+);?$", text)) - {"goal", "tie"}
    for m in WORD.finditer(text):
        word = m.group(0)
        new = rows.get(word)
        if new is None or code.endswith(".rt") and word == word.lower() and "-" not in word:
            continue
        behind = re.search(r"(?:^|[\s({,])([^\s(){}.;,@\"«»]+)\.$", text[max(0, m.start() - 60) : m.start()])
        if text[m.start() - 1 : m.start()] == "." and word not in fields and not (behind and behind.group(1) in modules) and not re.search(r"Rattle(?:\.[\w'+-]+)+\.$", text[max(0, m.start() - 99) : m.start()]):
            continue
        out.append(text[end : m.start()])
        out.append(new)
        end = m.end()
    out.append(text[end:])
    return "".join(out)


def main():
    words = [w for w in sys.argv[1:] if not w.startswith("--")]
    to = None
    if "--table" in sys.argv:
        to = sys.argv[sys.argv.index("--table") + 1]
        words.remove(to)
    root = words[0] if words else os.path.dirname(os.path.dirname(os.path.abspath(__file__)))
    rows, fields = table(root)
    if to:
        json.dump(rows, open(to, "w"), indent=0, ensure_ascii=False, sort_keys=True)
    together = collections.defaultdict(list)
    for old, new in rows.items():
        together[new].append(old)
    print(len(rows), "names;", sum(len(v) > 1 for v in together.values()), "fall together")
    for new, olds in sorted(together.items()):
        if len(olds) > 1:
            print("  together:", new, olds)
    if "--check" in sys.argv:
        return
    for path in antt_files(root):
        text = open(path, encoding="utf-8").read()
        new = turned(text, rows, fields, path)
        if new != text:
            open(path, "w", encoding="utf-8").write(new)


main()
