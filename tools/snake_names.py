#!/usr/bin/env python3
"""Brings the names of definitions and lemmas to the spelling of today's Rattle: words in snake case.

usage: python3 tools/snake_names.py            at the top, after the toolchain's own port.py

A hump becomes an underscore (`blockOf` is `block_of`), and so does a dash between plain words (`put-here` is
`put_here`). A dash stays where it joins two functions of specs/ or of the library in the name of a lemma
(`word_bytes-word`). Only names that .antt files declare, and ghost members of traits, are turned, in .antt, .rt and
.edit files; a name of a goal or of a step that Rattle makes keeps its form. APART has the names that would otherwise
fall together with another. Run again, it turns nothing.
"""
import collections
import os
import re
import sys

TOKEN = re.compile(r"(?<![\w'])[A-Za-z_][\w']*(?:-[\w']+)*")
DECLARED = re.compile(
    r"^([ ]*)((?:(?:abbrev|unfoldable|pub|record|data|ruleset)\s+)*)"
    r"([A-Za-z_][\w']*(?:-[\w']+)*)\s*(?:\([^()]*\)\s*)*:(?!=)\s*(\S+)",
    re.M,
)
APART = {
    # functions of src/ stand beside these
    "takenIn": "taken_in_from",
    "leftWord": "left_word_of",
    "rightWord": "right_word_of",
    "keyWord": "key_word_of",
    "evenBack": "even_back_of",
    "oddBack": "odd_back_of",
    "isFree": "is_free_place",
    "inUse": "places_in_use",
    # definitions stand beside these, fields and lemmas
    "curve-of": "lawful_points",
    "curve_of_lem": "lawful_points",
    "five-and-seven": "bundle_of_five_and_seven",
    "five_and_seven_lem": "bundle_of_five_and_seven",
    "in-force": "now_in_force",
    "in_force_lem": "now_in_force",
    "in-range": "each_in_range",
    "in_range_lem": "each_in_range",
    "key-words": "words_of_a_key",
    "key_words_lem": "words_of_a_key",
    "word-bytes": "bytes_of_a_word",
    "curve-bytes": "bytes_of_a_curve",
    "taken-in": "whole_taken_in",
    "sealed-is-taken-in": "sealed_is_taken_in",
    # these go by the name of the function whose contract names them
    "withdrawn-stays-withdrawn": "withdrawn_stays_withdrawn",
    "withdrawn-stays_withdrawn": "withdrawn_stays_withdrawn",
    "starting-blocks-differ": "starting_blocks_differ",
    "starting_blocks_differ_lem": "starting_blocks_differ",
    "flows-come-from-a-publish": "flows_come_from_a_publish",
    "flows_come_from_a_publish_lem": "flows_come_from_a_publish",
}
# functions of the library that names of lemmas begin or end with
STD = "length append drop take replicate map set".split()


def files():
    for folder, dirs, names in os.walk("crates"):
        dirs[:] = sorted(d for d in dirs if d != "out")
        for name in sorted(names):
            if name.endswith((".antt", ".rt", ".edit")):
                yield os.path.join(folder, name)


def made(path, kind):
    """Whether Rattle makes the name: a goal, an invariant or a measure in the folder of a function's proof."""
    parts = path.split("/")
    return parts[2] == "proofs" and len(parts) > 4 and re.match(r"(goal|given|need)\.", kind)


def snake(name):
    return re.sub(r"(?<=[a-z0-9])[A-Z]", lambda m: "_" + m.group().lower(), name)


def main():
    texts = {p: open(p, encoding="utf-8").read() for p in files()}
    declared, functions, taken = set(), set(STD), collections.Counter()
    for path, text in texts.items():
        if path.endswith(".antt"):
            for indent, words, name, kind in DECLARED.findall(text):
                if not made(path, kind):
                    declared.add(name)
                    if "/specs/" in path and not indent and re.search("abbrev|unfoldable", words):
                        functions.add(snake(name))
            declared.update(re.findall(r" as ([a-z]\w*)", text))
            text = re.sub(r"--.*", "", text)
        elif path.endswith(".rt"):
            declared.update(re.findall(r"ghost (\w+)\s*[:=]", text))
            declared.update(n for line in re.findall(r"ghost use .*", text) for n in re.findall(r" as ([a-z]\w*)", line))
            text = re.sub(r"//.*", "", text)
        taken.update(TOKEN.findall(text))
    fields = {
        name
        for path, text in texts.items()
        if path.endswith(".antt")
        for indent, words, name, kind in DECLARED.findall(text)
        if indent and "/specs/" in path
    }

    turned = {}
    for name in sorted(n for n in declared if n[0].islower()):
        new = APART.get(name)
        if new is None:
            parts = [snake(p) for p in name.split("-")]
            new = parts[0]
            for part in parts[1:]:
                joins = new in functions and part in functions and name not in fields
                new += ("-" if joins else "_") + part
        if new != name:
            turned[name] = new
    told = collections.Counter(turned.values())
    double = [f"{n} would be {new}" for n, new in sorted(turned.items()) if n not in APART and (new in taken or told[new] > 1)]
    if double:
        sys.exit("\n".join(double + ["There are such names already: give these names in APART."]))
    for path, text in texts.items():
        # an edit may still have names that port.py turned elsewhere
        edit = path.endswith(".edit")
        new = TOKEN.sub(lambda m: turned.get(m.group()) or (snake(m.group()) if edit and m.group()[0].islower() else m.group()), text)
        if new != text:
            open(path, "w", encoding="utf-8").write(new)
    for name in sorted(turned):
        print(f"{name} -> {turned[name]}")


sys.exit(main())
