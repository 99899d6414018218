#!/usr/bin/env python3
"""Spells the names that this repository's own specs/ and proofs/ declare as today's Rattle does: words in snake case, types in camel case.

usage: spell.py [--check]      at the top, once, after port.py. --check prints the table and writes nothing.

A definition in lower camel case becomes snake case (`lowestOf` is `lowest_of`), and a dash in a lemma's name an underscore (`max-min-unique` is `max_min_unique`), but
beside a type's name, which keeps its capital. A name that a file imports from elsewhere keeps its spelling. Functions of src/, exported names, strings,
inputs and outputs are not touched. Where a lemma would get the name of a definition, it gets `_lem`.
"""
import collections
import glob
import os
import re
import sys

# fields whose plain name is a definition's
OTHERWISE = {"is-link": "is_a_link"}
WORD = re.compile(r'[^\s(){}\[\].;,@"«»`|⌜⌝]+')
CRATES = sorted(os.path.basename(os.path.dirname(p)) for p in glob.glob("crates/*/src"))
TOP = re.compile(r"^((?:pub |abbrev |unfoldable |private )*)(record |data )?([^\s:(){}=;,\[\]]+)(?=\s|$)")


def files(*patterns):
    found = []
    for p in patterns:
        found += glob.glob(p, recursive=True)
    return sorted(f for f in set(found) if "/out/" not in f)


def read(f):
    with open(f, encoding="utf-8") as h:
        return h.read()


LAW_FILES = files("crates/*/specs/*.antt", "crates/*/proofs/*.antt")
FN_FILES = files("crates/*/proofs/*/**/*.antt")
RT = files("crates/*/src/*.rt")
EDITS = files("crates/*/must-fail/*.edit")
PAGES = files("README.md", "docs/**/*.md")


def words_of(text):
    return [t for line in text.split("\n") if not line.lstrip().startswith("--") for t in WORD.findall(line.split(" -- ")[0])]


def declared():
    types, functions, lemmas, fields = set(), set(), set(), set()
    for f in LAW_FILES + FN_FILES:
        if f.endswith("/Lib.antt"):
            continue
        lines = read(f).split("\n")
        in_record, depth = False, 0
        for n, line in enumerate(lines):
            bare = line.strip()
            indent = len(line) - len(line.lstrip())
            if not bare or bare.startswith("--") or bare.startswith("use ") or bare.startswith("unfolding") or bare.startswith("module "):
                continue
            if in_record and indent <= depth:
                in_record = False
            m = TOP.match(bare)
            if not m or m.group(3) in ("mod", "use", "where", "mutual", "open", "let", "in", "data", "record"):
                continue
            name, rest = m.group(3), bare[m.end(3):]
            after = lines[n + 1].strip() if n + 1 < len(lines) else ""
            if re.search(r"(?<![^\s(]):(?!\S)", rest):
                signed = rest.split(" : ")[0] if " : " in rest else rest
                if re.match(r"\s*=|.*\s=\s", signed.split("(")[0].split("{")[0]):
                    continue
                head = re.match(r"(\s*(\{[^{}]*\}|\([^()]*(\([^()]*\)[^()]*)*\)))*\s*:(\s|$)", rest)
                if not head and not m.group(2):
                    continue
            elif (rest.strip() == "" or re.match(r"(\s*(\{[^{}]*\}|\([^()]*\)))+$", rest)) and after.startswith(":"):
                pass
            elif not m.group(2):
                continue
            if re.match(r"\s*: (tie\.|.*statement M)", rest):
                continue
            if m.group(2):
                types.add(name)
                in_record, depth = True, indent
            elif in_record:
                fields.add(name)
            elif name[0].isupper() and "-" not in name and len(name) > 1:
                types.add(name)
            elif "unfoldable" in m.group(1) or "abbrev" in m.group(1) or "/specs/" in f:
                functions.add(name)
            else:
                lemmas.add(name)
    return types, functions, lemmas, fields


def foreign():
    """Names that some file imports from a library that is not this repository's, with the files."""
    out = set()
    for f in LAW_FILES + FN_FILES + RT:
        text = read(f)
        head = r"^ghost use" if f.endswith(".rt") else r"^use"
        for m in re.finditer(head + r" ([^\s;{]+)(?:\{([^}]*)\})?", text, re.M):
            steps = m.group(1).rstrip(".").split(".")
            if steps[0] == "Rattle" and len(steps) > 1 and steps[1] in CRATES:
                continue
            for item in (m.group(2) or "").split(","):
                item = item.strip().split(" as ")[-1].strip()
                if item:
                    out.add(item)
    return out


def snake(name, types):
    parts = name.split("-")
    made = []
    for p in parts:
        if p in types or p == "T":
            made.append(("type", p))
        else:
            w = re.sub(r"(?<=[a-z0-9])[A-Z]", lambda m: "_" + m[0].lower(), p)
            w = re.sub(r"(?<=_)[A-Z](?![a-z])", lambda m: m[0].lower(), w)
            if re.fullmatch(r"[A-Z]", w):
                w = w.lower()
            made.append(("word", w))
    out = made[0][1]
    for (k0, _), (k1, w) in zip(made, made[1:]):
        out += ("-" if "type" in (k0, k1) else "_") + w
    return out


def table():
    types, functions, lemmas, fields = declared()
    alien = foreign()
    rows = {}
    for kind, names in (("function", functions), ("field", fields), ("lemma", lemmas)):
        for n in sorted(names):
            if n in alien or n in types or n in rows:
                continue
            if not (re.match(r"^[a-z].*[A-Z]", n) or "-" in n):
                continue
            if not re.search(r"[a-zA-Z]", n):
                continue
            new = snake(n, types)
            if new != n:
                rows[n] = (kind, new)
    taken = collections.defaultdict(set)
    allnames = types | functions | lemmas | fields | alien
    for n in allnames:
        taken[rows[n][1] if n in rows else n].add(n)
    said, local = [], {}
    for new, olds in sorted(taken.items()):
        if len(olds) < 2:
            continue
        said.append((new, sorted(olds)))
        # a definition keeps the name, and a lemma or a field gives way
        first = [o for o in olds if o in alien] or [o for o in olds if o in functions] or [o for o in olds if o in fields] or sorted(olds)[:1]
        for o in olds:
            if o == first[0]:
                continue
            to = OTHERWISE.get(o, new + "_lem")
            if o in rows:
                rows[o] = (rows[o][0], to)
            else:
                local[o] = to
    return rows, local, said


def turn(text, rows, dashes=True):
    def one(m):
        w = m.group(0)
        stem = w.rstrip("'")
        if w in rows and (dashes or "-" not in w):
            return rows[w][1]
        if stem in rows and (dashes or "-" not in stem):
            return rows[stem][1] + w[len(stem):]
        return w
    return WORD.sub(one, text)


def turn_antt(text, rows):
    out = []
    for line in text.split("\n"):
        if line.lstrip().startswith("--"):
            line = re.sub(r"`[^`]*`", lambda m: turn(m.group(0), rows), line)
            line = turn(line, rows, dashes=False)
        else:
            line = turn(line, rows)
        out.append(line)
    return "\n".join(out)


def turn_page(text, rows):
    """Code spans and fenced blocks without a language; a fenced block in a language keeps its words but those in camel case."""
    out, fenced = [], False
    for line in text.split("\n"):
        if line.startswith("```"):
            fenced = not fenced
        elif fenced:
            line = turn(line, rows)
        else:
            line = re.sub(r"`[^`]*`", lambda m: turn(m.group(0), rows), line)
        out.append(line)
    return "\n".join(out)


def main():
    rows, local, said = table()
    if "--check" in sys.argv:
        for n, (kind, new) in sorted(rows.items()):
            print(f"{kind}\t{n}\t{new}")
        for o, to in sorted(local.items()):
            print(f"where it is declared\t{o}\t{to}")
        for new, olds in said:
            print("falls together:", new, olds)
        return
    for f in LAW_FILES + FN_FILES:
        t = read(f)
        mine = {o: ("lemma", to) for o, to in local.items() if re.search(rf"(?m)^ *(?:pub )?{re.escape(o)} :", t)}
        new = turn_antt(t, {**rows, **mine}).replace("cites them as Rattle·", "cites them as Rattle.").replace("Rattle·", "Rattle.")
        if new != t:
            open(f, "w", encoding="utf-8").write(new)
    for f in RT + EDITS:
        t = read(f)
        new = turn(t, rows)
        if new != t:
            open(f, "w", encoding="utf-8").write(new)
    for f in PAGES:
        t = read(f)
        new = turn_page(t, rows)
        if new != t:
            open(f, "w", encoding="utf-8").write(new)


main()
