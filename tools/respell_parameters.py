#!/usr/bin/env python3
"""Spells the parameters of laws in snake case, and the few names that tools/respell_names.py left: usage: tools/respell_parameters.py, at the top of the repository, once, after it.

A name stays where its new spelling stands in a file that has it.
"""
import glob
import re

import respell_names

NAMES = """from-p has-set i-in in-it in-old is-alone is-back is-before is-both is-by is-claim is-due is-entered is-finals is-fresh is-from is-i is-initials is-inside is-k is-l is-led is-left
is-letter is-marked is-met is-missing is-mix is-near is-next is-others is-over is-r is-rest is-rows is-s is-to is-tried is-u is-under is-v is-w is-z later-pass loop-notes loop-rounds low-p low-q
low-t max-rows max-sets mix-notes mix-rounds new-set no-back no-enters no-file' no-leaves no-left no-letter no-omega no-right no-strike none-met on-00 on-01 on-10 on-11 open-here order-of-starts
q-in rest-is return-to some-step tail-stands to-p with-is word-Stands""".split()
OTHERS = {"word-Stands": "word_stands", "get_d_map": "get_or_map", "getD_among": "get_or_among", "eq·": "eq_decides"}


def main():
    turned = {it: OTHERS.get(it, it.replace("-", "_")) for it in NAMES} | OTHERS
    word = r"(?<![^\s(){}.;,@\"«»◌`])(%s)(?![^\s(){}.;,@\"«»◌`])"
    texts = {p: respell_names.read(p) for p in respell_names.texts([".antt", ".rt", ".edit"])}
    for old, new in sorted(turned.items()):
        there = [p for p, t in texts.items() if re.search(word % re.escape(old), t)]
        met = [p for p in there if re.search(word % re.escape(new), texts[p])]
        # a method of src/ has the name `return_to` too; no clause can name it
        if met and old != "return-to":
            print("met:", old, new, met)
            del turned[old]
    pattern = re.compile(word % "|".join(re.escape(it) for it in sorted(turned, key=len, reverse=True)))
    count = 0
    for p, text in texts.items():
        new = "\n".join(respell_names.line_turned(it, lambda s: pattern.sub(lambda m: turned[m[1]], s)) for it in text.split("\n"))
        if new != text:
            count += 1
            with open(p, "w", encoding="utf-8") as f:
                f.write(new)
    print(len(turned), "names,", count, "files")


main()
