#!/usr/bin/env python3
"""Spells the repository's own definitions and lemmas in snake case: a dash becomes an underscore, and the suffix of a law that decides, a raised dot, becomes `_decides`.

usage: tools/respell_names.py            at the top of the repository, once, after the kit's port.py

A name is the repository's own where a file of specs/ or proofs/ declares it: as an item, a field, a constructor, or a function of a `where`. Names that a file
imports from the kit's libraries stay in that file, and so do the names that Rattle makes of the code (goals, steps, answers). A name whose new
spelling is taken is reported and stays.
"""
import collections
import glob
import os
import re
import sys

WORD = r'[^\s(){}.;,@"«»]+'
DECLARED = re.compile(r"^\s*((?:(?:pub|abbrev|unfoldable|opaque|data|record)\s+)*)(" + WORD + r")((?:\s+[({].*?[)}])*)\s+:(?:\s|$)")
USE = re.compile(r"^\s*(?:pub |ghost )?use\s+(\S+?)\.\{([^}]*)\}", re.M)
FUNCTION = re.compile(r"\bfn\s+(\w+)")


def texts(kinds):
    for kind in kinds:
        for p in sorted(glob.glob("crates/**/*" + kind, recursive=True)):
            if "/out/" not in p:
                yield p


def read(p):
    with open(p, encoding="utf-8") as f:
        return f.read()


def respelled(name):
    return re.sub("·", "_decides", name.replace("-", "_"))


def declared():
    found = collections.defaultdict(set)
    for p in texts([".antt"]):
        for line in read(p).split("\n"):
            if line.lstrip().startswith("--"):
                continue
            m = DECLARED.match(line)
            if m and "=" not in line[: m.end()].replace("≡", "") and "tie." not in line:
                found[m[2]].add(p)
    return found


def parts_of(name):
    return [it for it in name.split("◌") if it]


def kits(text, own):
    """The names that a file imports from the kit's libraries."""
    names = set()
    for module, items in USE.findall(text):
        steps = module.split(".")
        if steps[0] == "Rattle" and len(steps) > 1 and steps[1] in own:
            continue
        for it in items.split(","):
            for word in it.split():
                names.add(word)
                names.update(parts_of(word))
    return names


def line_turned(line, turn):
    """A line with its names turned: in a comment only those between backquotes, and none in a string."""
    m = re.search(r'(?:^|(?<=\s))(?:--|//)(?=\s)', line)
    code, said = (line[: m.start()], line[m.start() :]) if m else (line, "")
    code = "".join(it if it.startswith('"') else turn(it) for it in re.split(r'("(?:[^"\\]|\\.)*")', code))
    return code + re.sub(r"`[^`]+`", lambda k: turn(k[0]), said)


def main():
    own = {os.path.basename(os.path.dirname(os.path.dirname(p))) for p in glob.glob("crates/*/src/")} | {p.split("/")[1] for p in glob.glob("crates/*/src")}
    all_names = declared()
    functions = {f for p in texts([".rt"]) for f in FUNCTION.findall(read(p))}
    turned, taken = {}, []
    for name in all_names:
        for it in parts_of(name) if "◌" in name else [name]:
            if ("-" in it or "·" in it) and re.search(r"\w", it):
                new = respelled(it)
                if new in all_names and "◌" not in name:
                    taken.append((it, new))
                else:
                    turned[it] = new
    by_new = collections.defaultdict(set)
    for old, new in turned.items():
        by_new[new].add(old)
    for new, olds in by_new.items():
        if len(olds) > 1:
            taken += [(o, new) for o in sorted(olds)]
            for o in olds:
                del turned[o]
    print("taken:", taken)
    print("as a function of src/:", sorted(n for n in turned.values() if n in functions))
    pattern = re.compile(r"(?<![^\s(){}.;,@\"«»◌`])(" + "|".join(re.escape(it) for it in sorted(turned, key=len, reverse=True)) + r")(?![^\s(){}.;,@\"«»◌`])")
    turn = lambda names, stay, text: names.sub(lambda m: m[1] if m[1] in stay else turned[m[1]], text)
    count = 0
    for p in texts([".antt", ".rt", ".edit"]):
        text = read(p)
        stay = kits(text, own) if not p.endswith(".edit") else set()
        new = "\n".join(line_turned(it, lambda s: turn(pattern, stay, s)) for it in text.split("\n"))
        for it in sorted(stay & set(turned)):
            if re.search(r"(?<![^\s(){}.;,])" + re.escape(it) + r"(?![^\s(){}.;,])", text):
                print("stays:", it, p)
        if p.endswith(".rt"):
            for a, b in zip(text.split("\n"), new.split("\n")):
                if a != b and ('"' in a):
                    print("look:", p, b)
        if new != text:
            count += 1
            with open(p, "w", encoding="utf-8") as f:
                f.write(new)
    print(len(turned), "names,", count, "files")
    docs = re.compile(r"`[^`\n]+`")
    for p in sorted(glob.glob("docs/*.md")) + ["README.md", "CONTRIBUTING.md"]:
        text = read(p)
        new = docs.sub(lambda m: pattern.sub(lambda k: turned[k[1]], m[0]), text)
        if new != text:
            with open(p, "w", encoding="utf-8") as f:
                f.write(new)


if __name__ == "__main__":
    main()
