#!/usr/bin/env python3
"""Places in src/ that a design pass reads: python3 tools/places.py [COMMIT] [POINT]. Without a commit it reads the files as they stand.

It prints candidates, point by point; docs/DESIGN-PASS.md says which of them are places of its points.
"""
import collections
import re
import subprocess
import sys

WORDS = {"let", "mut", "if", "else", "return", "while", "for", "in", "match", "true", "false", "as", "self", "break", "ref"}


def git(*args):
    return subprocess.run(["git", *args], check=True, capture_output=True, text=True).stdout


def sources(commit):
    for name in git("ls-tree", "-r", "--name-only", commit or "HEAD", "crates").split():
        if re.fullmatch(r"crates/\w+/src/\w+\.rt", name):
            yield name, git("show", f"{commit}:{name}") if commit else open(name, encoding="utf-8").read()


def functions(files):
    """Each function: its crate and name, its text up to the closing brace of its column."""
    for name, text in files:
        for m in re.finditer(r"^( *)(?:pub )?(?:extern \"C\" )?fn (\w+)", text, re.M):
            end = text.find("\n" + m.group(1) + "}\n", m.start())
            yield name.split("/")[1] + "::" + m.group(2), m.group(1), text[m.start():end]


def body(indent, text):
    """What a function does, with names, numbers and widths struck out."""
    at = text.find("\n" + indent + "{")
    text = re.sub(r"//.*", "", text[at:] if at >= 0 else text[text.find("{"):])
    text = re.sub(r"[A-Za-z_]\w*", lambda m: m.group(0) if m.group(0) in WORDS else "x", text)
    return re.sub(r"\s+", "", re.sub(r"\d[\d_]*", "0", text))


def lines(files, pattern):
    return [f"{name}:{n}: {line.strip()}" for name, text in files for n, line in enumerate(text.split("\n"), 1) if re.search(pattern, line)]


def twins(files):
    same = collections.defaultdict(list)
    for name, indent, text in functions(files):
        same[body(indent, text)].append(name)
    return [" ".join(names) for names in same.values() if len(names) > 1]


def long_lists(files):
    found = []
    for name, _, text in functions(files):
        inside = re.search(r"\(((?:[^()]|\([^()]*\))*)\)", text)
        count = len([p for p in re.split(r",\s*(?![^\[<]*[\]>])", inside.group(1).strip().rstrip(",")) if p]) if inside else 0
        if count >= 6:
            found.append(f"{name}: {count}")
    return found


def facts(files):
    count = collections.Counter()
    for _, text in files:
        for m in re.finditer(r"requires (?:\w+ )?\{(.*?)\}\n", text, re.S):
            count.update({" ".join(fact.split()).strip("() ") for fact in m.group(1).split("×")})
    return [f"{n} {fact}" for fact, n in count.most_common() if n >= 3]


POINTS = {
    "1 enums": lambda f: lines(f, r"^\s*(pub )?enum "),
    "1 numbers for none": lambda f: lines(f, r"^\s*//.*(, or (0|16|32|64|[A-Z_]{3,})\b| or 16\b|of the source's own|\bNONE\b|; [A-Z_]{3,} where)"),
    "1 constants": lambda f: lines(f, r"^\s*(pub )?const "),
    "2 functions of the same body": twins,
    "3 loops": lambda f: lines(f, r"^\s*('[a-z]+: )?(while|for|loop)\b"),
    "4 matches": lambda f: lines(f, r"\bmatch\b.*\{$"),
    "5 six parameters or more": long_lists,
    "5 facts of three contracts or more": facts,
    "6 arrays": lambda f: lines(f, r"\[(u8|u32|u64|Entry); [0-9_A-Z]+\]"),
    "7 functions as values": lambda f: lines(f, r"\bFn(Mut|Once)?\("),
}

if __name__ == "__main__":
    args = sys.argv[1:]
    point = args.pop() if args and args[-1].isdigit() and len(args[-1]) == 1 else ""
    read = list(sources(args[0] if args else None))
    for title, find in POINTS.items():
        if title.startswith(point):
            found = find(read)
            print(f"{title}: {len(found)}", *found, sep="\n  ")
