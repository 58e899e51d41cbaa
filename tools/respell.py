#!/usr/bin/env python3
"""Spells this repository's own definitions and lemmas in snake case: 'first-number' becomes 'first_number'.

usage: python3 tools/respell.py [--dry]        at the top of the repository, once, after the kit's port.py

A name is one of ours if specs/*.antt or a lemma file of proofs/ declares it: a definition, a record, its fields, a constructor, a lemma. Names that the
checker makes (in a function's own folder of proofs/), functions of src/ and names of the library stay. It stops, and writes nothing, where two names
of one file would fall together.
"""
import collections
import os
import re
import sys

TOP = re.compile(r"^(?:pub |abbrev |unfoldable |opaque |private )*([^\s:(){}]+)\s*:(?!:)")
TYPE = re.compile(r"^(?:pub |abbrev |unfoldable )*(?:record|data)\s+(?:pub )?([^\s:(){}]+)")
FIELD = re.compile(r"^ {2,4}(?:pub |abbrev |unfoldable )*((?:[^\s:(){}]+ )*[^\s:(){}]+)\s*:(?!:)")
DEEP = re.compile(r"^\s+(?:abbrev |unfoldable )+(?:pub )?([^\s:(){}]+)\s*:(?!:)")
# a word of the logic's language
WORD = re.compile(r"(?<![\w'·◌-])[A-Za-z_][\w'₀-₉]*(?:-[\w'₀-₉]+)*(?![\w'·◌-])")
# what the checker makes for a function: two or more of these stand in one folder
MADE = ("Proof.antt", "Invariants.antt", "Answers.antt")


def files(*endings):
    for top in ("crates", "docs", "README.md", "examples"):
        if os.path.isfile(top):
            yield top
        for folder, inner, names in os.walk(top):
            inner[:] = sorted(i for i in inner if i != "out")
            for name in sorted(names):
                if name.endswith(endings):
                    yield os.path.join(folder, name)


def lemma_file(path):
    return "/specs/" in path or ("/proofs/" in path and os.path.basename(path) not in MADE)


def declared():
    found = collections.defaultdict(set)
    for path in files(".antt"):
        if not lemma_file(path):
            continue
        inside = False
        for line in open(path, encoding="utf-8"):
            line = line.rstrip("\n")
            if not line.strip() or line.startswith("--"):
                continue
            it = TYPE.match(line)
            if it:
                found[it.group(1)].add(path)
                inside = True
            elif not line[0].isspace():
                inside = line.startswith("module ")
                it = TOP.match(line)
                if it:
                    found[it.group(1)].add(path)
            elif DEEP.match(line):
                found[DEEP.match(line).group(1)].add(path)
            elif inside:
                it = FIELD.match(line)
                if it:
                    for name in it.group(1).split():
                        found[name].add(path)
    return found


def standing(text, path):
    """The words that stand for something here: not in a comment, not a part of a path; of a .rt file those of clauses, since code has names of its own."""
    lines = [l.split("-- ")[0] for l in text.split("\n") if not l.startswith("--")]
    if path.endswith(".rt"):
        lines = [l for l in lines if l.strip().startswith(("ensures", "requires", "ghost"))]
    return {m.group(0) for l in lines for m in WORD.finditer(l) if l[max(0, m.start() - 1) : m.start()] != "."}


def of_library(text, crates):
    """The names that a file imports from the library: they stay, though one of ours may be spelled alike."""
    names = set()
    for path, listed in re.findall(r"^(?:pub |ghost )*use ([^\s{;]+)\.\{([^}]*)\}", text, re.M):
        part = path.split(".")
        if part[0] != "Rattle" or part[1] not in crates:
            names |= {n.split(" as ")[0].strip() for n in listed.split(",")}
    return names


def snake(name):
    return name.replace("-", "_")


def main(argv):
    dry = "--dry" in argv
    ours = {n: p for n, p in declared().items() if "-" in n}
    crates = set(os.listdir("crates"))
    clash = []
    new = {}
    for path in files(".antt", ".rt", ".edit", ".md"):
        text = open(path, encoding="utf-8").read()
        stay = of_library(text, crates)
        if path.endswith(".antt") or path.endswith(".rt"):
            words = set(WORD.findall(text))
            bare = standing(text, path)
            clash += [(path, w) for w in words if w in ours and w not in stay and snake(w) in bare]

        def turn(m):
            w = m.group(0)
            # what the checker makes is named behind its module
            if text[max(0, m.start() - 4) : m.start()].endswith(("tie.", "goal.")):
                return w
            return snake(w) if w in ours and w not in stay else w

        if path.endswith(".md"):
            turned = re.sub(r"`[^`\n]+`", lambda q: WORD.sub(lambda m: snake(m.group(0)) if m.group(0) in ours else m.group(0), q.group(0)), text)
        else:
            turned = WORD.sub(turn, text)
        if turned != text:
            new[path] = turned
    if clash:
        print("these would fall together:")
        for path, w in clash:
            print(f"  {path}: {w}")
        return 1
    if not dry:
        for path, text in new.items():
            with open(path, "w", encoding="utf-8") as f:
                f.write(text)
    print(f"{len(ours)} names, {len(new)} files")
    return 0


if __name__ == "__main__":
    raise SystemExit(main(sys.argv[1:]))
