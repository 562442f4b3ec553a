#!/usr/bin/env python3
"""tools/port/names.py [--check]: gives the definitions and lemmas of the crates the spelling of today's Rattle.

Run once, at the top of the repository, on the tree as port.py leaves it. What specs/ and proofs/ declare is spelled anew: a function or
a lemma in snake case (`kindOn`, `kind-on` become `kind_on`), a fact in camel case (`tagNarrow` becomes `TagNarrow`). A name that begins
with a capital stays, and so do Rattle's own labels of goals and steps. Each name turns wherever it stands whole: in crates/, in the wrong
versions of tests/wrong/, and in the pages between backquotes. Where two names would fall together the lemma gets `_lem`.
--check writes nothing and lists the table.
"""

import collections
import os
import re
import sys

TOKEN = re.compile(r"[^\s(){}\[\].;,@\"«»`|⌜⌝]+")
DECLARED = re.compile(r"^( *)(?:(?:abbrev|unfoldable|pub|opaque) )*(record |data )?([^\s(){}.;,@\"«»:]+)((?: [({].*?)?) : (.*)$")
OF_A_GOAL = re.compile(r"^(tie|goal)\.\S+")
# A step's label that a lemma shares: behind a dot it stays.
LABELS = {"command-base"}
# What stands in the pages as a word of the tool's, not as a lemma.
WORDS = {"fill-bus", "fill_bus"}
A_FACT = re.compile(r"(^|→ )Type 0$")


def texts(kinds):
    for top in ("crates", "tests/wrong", "docs", "README.md"):
        if os.path.isfile(top):
            yield top
        for folder, dirs, files in os.walk(top):
            dirs[:] = sorted(d for d in dirs if d != "out")
            for name in sorted(files):
                if name.endswith(kinds):
                    yield os.path.join(folder, name)


def read(path):
    with open(path, encoding="utf-8") as it:
        return it.read()


def declared():
    """The names that specs/ and proofs/ declare, each with whether it is a fact."""
    out = collections.OrderedDict()
    for path in texts(".antt"):
        lines = read(path).split("\n")
        for at, line in enumerate(lines):
            it = DECLARED.match(line)
            if not it or line.lstrip().startswith("--"):
                continue
            whole = it[5]
            for more in lines[at + 1 :]:
                if not more.startswith("    "):
                    break
                whole += " " + more.strip()
            if OF_A_GOAL.match(whole):
                continue
            fact = not it[1] and not it[2] and bool(A_FACT.search(whole.strip()))
            out[it[3]] = out.get(it[3], False) or fact
    return out


def snake(name):
    name = name.replace("getD", "get_or").replace("-", "_")
    name = re.sub(r"(?<=[a-z0-9₀-₉'])([A-Z])", lambda it: "_" + it[1], name)
    return name.lower() if re.search(r"[A-Z]", name) else name


def camel(name):
    return re.sub(r"(?:^|[-_])([a-z])", lambda it: it[1].upper(), name)


def table():
    names = declared()
    out = {}
    for name, fact in names.items():
        if name[0].isupper() or not re.match(r"[a-z]", name):
            continue
        new = camel(name) if fact else snake(name)
        if new != name:
            out[name] = new
    # Names that fall together: with one that is there, or with each other in one file.
    used = collections.defaultdict(set)
    for path in texts(".antt"):
        text = re.sub(r"(?m)(?<![^\s])--.*$", "", read(path))
        for it in TOKEN.finditer(text):
            # A part of a path or of a record is no name of the file's own.
            if text[it.start() - 1 : it.start()] != "." and not re.match(r"\.[^\s{]", text[it.end() : it.end() + 2]):
                used[it[0]].add(path)
    taken = collections.defaultdict(list)
    for old, new in out.items():
        taken[new].append(old)
    for new, olds in sorted(taken.items()):
        files = [used[new]] + [used[o] for o in olds]
        together = set()
        for a in range(len(files)):
            for b in range(a):
                together |= files[a] & files[b]
        if together:
            print(f"together: {new}: {' '.join(olds)}{' (is there)' if used[new] else ''}: {' '.join(sorted(together)[:4])}")
            for old in olds:
                if "-" in old:
                    out[old] = new + "_lem"
            if new in names and not any("-" in old for old in olds):
                out[new] = new + "_lem"
    return out


def main(argv):
    rows = table()
    if "--check" in argv:
        for old, new in sorted(rows.items()):
            print(f"{old}\t{new}")
        return
    # What port.py has turned already in .rt and .antt files.
    there = set(declared())
    own = tuple(f"Rattle.{name}." for name in os.listdir("crates"))
    used = re.compile(r"(?m)^(?:ghost )?use (\S+?)\.\{([^}]*)\}")

    # `_lem` is a lemma's own: not of a step's label, behind a dot, nor of a function or a folder.
    def word(it):
        if it[0] in LABELS and it.string[it.start() - 1 : it.start()] == ".":
            return it[0]
        new = it[0] if it[0] in kept else rows.get(it[0], it[0])
        if new == it[0] and not path.endswith((".antt", ".rt")) and it[0] not in kept | there and snake(it[0]) in there and it[0][0].islower():
            new = snake(it[0])
        if new.endswith("_lem") and (it.string[it.start() - 1 : it.start()] == "." or "-" not in it[0] and not path.endswith(".antt")):
            return it[0].replace("-", "_")
        return new

    span = re.compile(r"`[^`\n]+`")
    for path in texts((".antt", ".rt", ".edit", ".md")):
        text = read(path)
        # What a file takes from a library stays.
        kept = {one.strip() for it in used.finditer(text) if not (it[1] + ".").startswith(own) for one in it[2].split(",")}
        if path.endswith(".md"):
            kept = WORDS
            new = span.sub(lambda it: TOKEN.sub(word, it[0]), text)
        else:
            new = TOKEN.sub(word, text)
        if new != text:
            with open(path, "w", encoding="utf-8") as it:
                it.write(new)


if __name__ == "__main__":
    main(sys.argv[1:])
