#!/usr/bin/env python3
"""Respells the repository's own definitions and lemmas, once, after port.py.

    python3 tools/respell.py           at the top of the repository
    python3 tools/respell.py --list    prints the pairs of names and changes nothing

A word of specs/ or proofs/ that has a dash becomes snake case, one that begins with a capital camel case:
floor-div becomes floor_div, Each-within becomes EachWithin. Names that the check makes (goals, invariants,
measures, and what they are called after) stay as they are, and so do comments, texts and edits. It prints
each pair of names that falls together with a word that stood there before.
"""

import glob
import re
import sys

# Names with an operator in them.
OPERATORS = {"trans-≤": "trans_le", "ptr-η": "ptr_eta"}
# Declared here, and called after a goal: not words of this repository.
GENERATED = re.compile(
    r"(returns|loop|invariant|decreases|overflow|nonzero|bounds|slice_bounds|offset_bounds|prove|ghost)(-|$)|"
    r".*-(requires|init|preserved|smaller)(-|$)|(if|then|else|in|in_ok|in_err)-"
)
WORD = r"[A-Za-z_][\w'\-]*[\w']"
DECLARED = [
    re.compile(r"^\s*(?:(?:pub|abbrev|unfoldable|data|record)\s+)*(?:◌)?(" + WORD + r")(?:◌)?\s*:\s(?!\s*goal\.)"),
    re.compile(r"^\s*(?:pub )?(?:data|record) (" + WORD + ")"),
    re.compile(r"^\s*[|]\s*(?:pub )?(" + WORD + r")\s*:"),
]
LOCAL = [
    re.compile(r"\blet (" + WORD + r")(?: :| =)"),
    re.compile(r"[({]((?:" + WORD + r" )*" + WORD + r") : "),
    re.compile(r"λ ((?:" + WORD + r" )*" + WORD + r")\."),
]
ALIAS = re.compile(r"\bas (" + WORD + r")(?=[,}])")


def files():
    for kind in ("specs", "proofs"):
        yield from sorted(glob.glob(f"crates/*/{kind}/**/*.antt", recursive=True))


def sources():
    yield from sorted(glob.glob("crates/*/src/**/*.rt", recursive=True))


def respelled(name):
    if name in OPERATORS:
        return OPERATORS[name]
    parts = name.split("-")
    if name[0].isupper():
        return parts[0] + "".join(part[:1].upper() + part[1:] for part in parts[1:])
    return "_".join(parts)


def declared():
    names = set()
    for path in files():
        for line in open(path, encoding="utf-8"):
            code = line.split("--", 1)[0] if line.lstrip().startswith("--") else line
            for pattern in DECLARED:
                found = pattern.match(code)
                if found and ("/specs/" in path or not GENERATED.match(found.group(1))):
                    names.add(found.group(1))
            for pattern in LOCAL:
                for group in pattern.findall(code):
                    names.update(n for n in group.split() if not GENERATED.match(n))
            if code.lstrip().startswith("use "):
                names.update(n for n in ALIAS.findall(code) if not GENERATED.match(n))
    for path in sources():
        for line in open(path, encoding="utf-8"):
            if line.lstrip().startswith("ghost use "):
                names.update(ALIAS.findall(line))
    return {n for n in names if "-" in n} | set(OPERATORS)


def pieces(text, comment):
    """The text, cut into what is code and what is a comment or a text in quotes."""
    pattern = re.compile(r'(' + comment + r'[^\n]*|b?"(?:[^"\\\n]|\\.)*")')
    return pattern.split(text)


def main():
    names = declared()
    pairs = {name: respelled(name) for name in names}
    if "--list" in sys.argv:
        for name in sorted(pairs):
            print(name, pairs[name])
        return
    whole = re.compile(r"(?<![\w'\-])(" + "|".join(sorted(map(re.escape, pairs), key=len, reverse=True)) + r")(?![\w'\-])")
    for path, comment in [(p, "--") for p in files()] + [(p, "//") for p in sources()]:
        text = open(path, encoding="utf-8").read()
        cut = pieces(text, comment)
        before = set(re.findall(r"(?<![\w'\-])" + WORD + r"(?![\w'\-])", "".join(cut[::2])))
        used = {name for name in pairs if name in before}
        for name in sorted(used):
            if pairs[name] in before:
                print(f"falls together: {path}: {name} and {pairs[name]}")
        new = "".join(whole.sub(lambda m: pairs[m.group(1)], p) if i % 2 == 0 else p for i, p in enumerate(cut))
        if new != text:
            open(path, "w", encoding="utf-8").write(new)


main()
