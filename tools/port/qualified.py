#!/usr/bin/env python3
"""Mends names cited through a module (`states.on-other`) that the respelling left as they were: they are spelled as the module of this repository that they are cited from declares them.

usage: qualified.py CRATE..     at the top of the repository
"""
import os
import re
import sys

W = r"[^\s(){}\[\];,.\"`|]+"


def declared(path):
    text = open(path, encoding="utf-8").read()
    return {m.group(1) for m in re.finditer(r"(?m)^\s*(?:abbrev |unfoldable )?(?:pub )(?:abbrev |data |record |ruleset )?(" + W + ")", text)}


def main(argv):
    for crate in argv:
        for folder, _, files in os.walk(os.path.join("crates", crate)):
            if "/out" in folder:
                continue
            for f in files:
                if not f.endswith((".antt", ".rt", ".edit")):
                    continue
                path = os.path.join(folder, f)
                text = new = open(path, encoding="utf-8").read()
                for m in re.finditer(r"(?m)^(?:ghost )?use Rattle\.(\w+)\.(specs|proofs)\.([\w.]+?)(?: as (\w+))?;?$", text):
                    at = os.path.join("crates", m.group(1), m.group(2), *m.group(3).split(".")) + ".antt"
                    alias = m.group(4) or m.group(3).split(".")[-1]
                    if not os.path.exists(at):
                        continue
                    names = declared(at)
                    flat = {n.replace("-", "_"): n for n in names}

                    def one(x):
                        n = x.group(1)
                        if n in names:
                            return x.group(0)
                        return alias + "." + flat.get(n.replace("-", "_"), n)

                    new = re.sub(r"(?<![\w.'-])" + re.escape(alias) + r"\.(" + W + ")", one, new)
                if new != text:
                    open(path, "w", encoding="utf-8").write(new)
                    print(path)


main(sys.argv[1:])
