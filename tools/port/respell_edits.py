#!/usr/bin/env python3
"""Brings the texts of must-fail edits to the spelling of today's Rattle: names in snake case, projections written tight, and the crate hex as hex_digits.

usage: respell_edits.py    at the top of the repository, once, behind respell.py

A text changes only in its spelling; tools/once says whether each still stands once in its file.
"""
import glob
import re
import sys

sys.dont_write_bytecode = True


def snake(m):
    return re.sub(r"([a-z0-9'])([A-Z])", lambda x: x.group(1) + "_" + x.group(2).lower(), m.group(0))


def tight(text):
    """`r .field` is written `r.field`, and `f x .field` is `(f x).field`."""
    text = re.sub(r"\b(place_at n t \w+) ((?:\.\w+ ?)+)", lambda m: "(" + m.group(1) + ")" + m.group(2).replace(" .", ".").rstrip() + (" " if m.group(2).endswith(" ") else ""), text)
    while re.search(r"([\w)]) (\.[a-z_]+)", text):
        text = re.sub(r"([\w)]) (\.[a-z_]+)", r"\1\2", text)
    # what stood in brackets for the projection alone
    text = re.sub(r"\((\(\w[^()]*\)(?:\.\w+)+)\)", r"\1", text)
    return re.sub(r"(?<=[ (])\((\w+(?:\.\w+)+)\)", r"\1", text)


for path in sorted(glob.glob("crates/*/must-fail/*.edit")):
    lines, file = [], ""
    for line in open(path, encoding="utf-8").read().split("\n"):
        kind, colon, text = line.partition(":")
        if kind == "file":
            file = text.strip()
        elif kind in ("old", "new") and colon:
            text = re.sub(r"\bhex::", "hex_digits::", text)
            text = re.sub(r"(?<![\w'])[a-z][\w']*[A-Z][\w']*", snake, text)
            if file.startswith("specs/"):
                text = tight(text)
        lines.append(kind + colon + text)
    new = "\n".join(lines)
    if new != open(path, encoding="utf-8").read():
        with open(path, "w", encoding="utf-8") as out:
            out.write(new)
