#!/usr/bin/env python3
"""Respells the repository's own definitions and lemmas as today's Rattle spells names, and gives the crate `hex`
the name `hexadecimal`, since the kit has a library `hex`. Run once, behind the kit's `port.py`, at the top:

    python3 tools/respell.py

Facts and records are in upper camel case, all else in snake case; a dash is kept where it joins the names of two
functions. Functions of src/, texts, comments and must-fail edits are left as they are.
"""
import os
import re
import sys

# lemmas whose dash joins two names
KEPT = {"length-padding", "length-absorbed", "length-bytes", "xored-append", "xored-zeros", "shown-append"}

DEFINITION = re.compile(r"^(?:abbrev |unfoldable )?(?:pub )?(?:record |data )?(?:pub )?([\w'-]+) (?:[({].*)?:")
MEMBER = re.compile(r"^ +pub ([\w'-]+) (?:[({].*)?:")
ALIAS = re.compile(r" as ([\w'-]+)")
# a word of antt, or what a rename must not look into: a comment or a text
PIECE = re.compile(r'"(?:[^"\\]|\\.)*"|--[^\n]*|//[^\n]*|[\w\'-]+')


def files():
    for folder, dirs, names in os.walk("crates"):
        dirs[:] = sorted(d for d in dirs if d not in ("out", "must-fail"))
        for name in sorted(names):
            if name.endswith((".antt", ".rt")):
                yield os.path.join(folder, name)


def respelt(name):
    if name[0].isupper():
        return "".join(part[0].upper() + part[1:] for part in name.split("-"))
    return name.replace("-", "_")


def own_names(texts):
    """The names with a dash that specs/ and lemma files define, goals' answers left out."""
    found = set()
    for path, text in texts.items():
        if not path.endswith(".antt"):
            continue
        for line in text.split("\n"):
            answer = re.search(r": goal\.", line)
            for pattern in (DEFINITION, MEMBER):
                match = pattern.match(line)
                if match and "-" in match.group(1) and not answer and not line.startswith("--"):
                    found.add(match.group(1))
            if line.startswith("use "):
                found.update(name for name in ALIAS.findall(line) if "-" in name)
    return found


def main():
    if os.path.isdir("crates/hex"):
        os.rename("crates/hex", "crates/hexadecimal")
    texts = {}
    for path in files():
        with open(path, encoding="utf-8") as f:
            texts[path] = f.read()
    table = {name: respelt(name) for name in own_names(texts) if name not in KEPT}
    words = set()
    for text in texts.values():
        words.update(PIECE.findall(text))
    for old, new in sorted(table.items()):
        if new in words:
            print("look: %s falls together with a word that stands already: %s" % (old, new))
    if len(set(table.values())) != len(table):
        sys.exit("two names fall together")
    for path, text in texts.items():
        new = PIECE.sub(lambda m: table.get(m.group(0), m.group(0)), text)
        new = new.replace("Rattle.hex.", "Rattle.hexadecimal.").replace("use hex::", "use hexadecimal::")
        if new != text:
            with open(path, "w", encoding="utf-8") as f:
                f.write(new)
    with open("crates.txt", encoding="utf-8") as f:
        crates = f.read()
    with open("crates.txt", "w", encoding="utf-8") as f:
        f.write(re.sub(r"\bhex\b", "hexadecimal", crates))
    print("%d names" % len(table))


main()
