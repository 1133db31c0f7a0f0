#!/usr/bin/env python3
"""Brings this repository's own names in specs/, proofs/ and clauses to the spelling of today's Rattle: words in snake case, types and modules in camel case.

usage: respell.py          at the top of the repository, once, behind the kit's port.py and before any edit by hand
       respell.py --map    prints what it would rename, and writes nothing

A definition `fromBe` becomes `from_be`, a lemma `stays-sound` becomes `stays_sound`; a lemma that would have the name of a definition gets `_lem`.
Names that Rattle makes for proofs (`tie.Need-..`, `c.fewer-end.result`, the goals that a Proof.antt answers), names of the library, functions of src/, strings, inputs and
outputs stay. In comments and documents it respells what stands between backticks. It stops, and writes nothing, where two names would fall together.
"""
import collections
import os
import re
import sys

W = r"[^\s(){}\[\];,.\"`|]+"
TOKEN = re.compile(W)
WORD = re.compile(r"^\+?[a-z][\w'₀-₉-]*$")
DECLARED = re.compile(r"(?m)^(?:unfoldable |abbrev )?(?:pub )?(?:unfoldable )?(" + W + r")(?: \{[^}\n]*\})? :(?= |$)")
INNER = re.compile(r"(?m)^( +)(?:unfoldable |abbrev )?(?:pub )?(" + W + r") :(?= |$)")
IMPORT = re.compile(r"(?m)^\s*(?:pub )?(?:ghost )?use ([^\s;{]+?)(?:\.\{([^}]*)\}| as [^\s;]+)?;?$")
# Crates named as a library of the kit, with their new names.
CRATES = {"hex": "hex_digits"}
# Where two names fall together and neither is a lemma.
OVER = {"goes_on": "goes_further"}
OWN = re.compile(r"^Rattle\.(\w+)\.")


def read(path):
    with open(path, encoding="utf-8") as f:
        return f.read()


def files(root, ends):
    for folder, dirs, names in os.walk(os.path.join(root, "crates")):
        dirs[:] = sorted(d for d in dirs if d != "out")
        for name in sorted(names):
            if name.endswith(ends):
                yield os.path.join(folder, name)


def is_proof(path):
    return path.endswith("/Proof.antt")


def bare(text):
    """The text without comments."""
    return re.sub(r"(?m)(^|(?<=\s))--.*$", "", text)


def snake(name):
    name = re.sub(r"([a-z0-9'])([A-Z])", lambda m: m.group(1) + "_" + m.group(2).lower(), name)
    return name.replace("-", "_")


def imports(text, crates):
    """The names that a file takes from the library, and those that it takes from this repository."""
    theirs, ours = set(), set()
    for m in IMPORT.finditer(text):
        own = OWN.match(m.group(1))
        into = ours if own and own.group(1) in crates else theirs
        for item in (m.group(2) or "").split(","):
            if item.strip():
                into.add(item.split(" as ")[-1].strip())
    return theirs, ours


class Names:
    def __init__(self, root):
        self.root = root
        self.crates = {d for d in os.listdir(os.path.join(root, "crates")) if os.path.isdir(os.path.join(root, "crates", d, "src"))}
        self.texts = {p: read(p) for p in files(root, (".antt", ".rt"))}
        self.goals, self.theirs, self.inner = {}, {}, {}
        declared, self.fields = collections.defaultdict(set), set()
        for p, text in self.texts.items():
            text = bare(text) if p.endswith(".antt") else text
            self.theirs[p] = imports(text, self.crates)[0]
            self.goals[p] = set()
            if p.endswith(".rt"):
                continue
            for m in DECLARED.finditer(text):
                line = text[m.start() : text.find("\n", m.start())]
                if is_proof(p) and re.search(r" : tie\.(Need-|invariant-|decreases-)", line):
                    self.goals[p].add(m.group(1))
                    continue
                if WORD.match(m.group(1)):
                    declared[m.group(1)].add(p)
            for m in INNER.finditer(text):
                if WORD.match(m.group(2)):
                    if self.within(text, m) == "record":
                        self.fields.add(m.group(2))
                    else:
                        declared[m.group(2)].add(p)
        self.map = {}
        # definitions first: a lemma gives way
        order = sorted(set(declared) | self.fields, key=lambda n: (1 + ("-" in n) if not re.search("[A-Z]", n) else 0, n))
        final = {}
        for n in order:
            to = OVER.get(n, snake(n))
            if to in final and not re.search("[A-Z]", n):
                to += "_lem"
            final[to] = n
            if to != n:
                self.map[n] = to
        self.declared = declared
        # variables and names of a file's own `where` and `let`
        for p, text in self.texts.items():
            if p.endswith(".antt"):
                for t in TOKEN.findall(bare(text)):
                    if WORD.match(t) and re.search("[A-Z]", t) and not re.search("-[A-Z]", t) and t not in self.map:
                        self.map[t] = snake(t) + ("_here" if snake(t) in declared else "")

    @staticmethod
    def within(text, m):
        """The word that opens the block in which an indented declaration stands."""
        for line in reversed(text[: m.start()].split("\n")):
            if line.strip() and len(line) - len(line.lstrip()) < len(m.group(1)):
                return re.sub(r"^\s*(pub )?", "", line).split(" ")[0]
        return ""

    def turn(self, path, text):
        """The text of a file with its names respelled; a comment only between backticks."""
        theirs, goals = self.theirs.get(path, set()), self.goals.get(path, set())
        is_rt = path.endswith(".rt")

        def one(t, before, after):
            if t in theirs or t in goals or not WORD.match(t):
                return t
            if before == ".":
                return snake(t) if t in self.fields else self.map[t] if t in self.map and re.search("[A-Z]", t) else t
            if t in self.fields and re.match(r" [=:] ", after) and re.search(r"([{;]|^) *(pub )?$", before):
                return snake(t)
            if t in self.map:
                return self.map[t]
            # a local name
            if "-" in t and not is_rt and not is_proof(path):
                return snake(t)
            return t

        out = []
        for line in text.split("\n"):
            if is_rt:
                code, mark, comment = line.partition("//")
                if code.count('"') % 2:
                    code, mark, comment = line, "", ""
                parts = re.split(r'("(?:[^"\\]|\\.)*")', code)
                code = "".join(x if x.startswith('"') else self.camel(x) for x in parts)
                out.append(code + mark + self.ticked(comment))
                continue
            m = re.search(r"(^|(?<=\s))--", line)
            code, comment = (line[: m.start()], line[m.start() :]) if m else (line, "")
            if IMPORT.match(code) and not (OWN.match(IMPORT.match(code).group(1)) and OWN.match(IMPORT.match(code).group(1)).group(1) in self.crates):
                out.append(code + self.ticked(comment))
                continue
            if IMPORT.match(code):
                head, brace, names = code.partition("{")
                alias = re.match(r"^(.* as )([^\s;]+)(;?)$", head) if not brace else None
                if alias:
                    head = alias.group(1) + one(alias.group(2), "", "") + alias.group(3)
                out.append(head + brace + TOKEN.sub(lambda t: self.map.get(t.group(0), t.group(0)), names) + self.ticked(comment))
                continue
            out.append(TOKEN.sub(lambda t: one(t.group(0), "." if code[t.start() - 1 : t.start()] == "." else code[: t.start()], code[t.end() : t.end() + 3]), code) + self.ticked(comment))
        return "\n".join(out)

    def camel(self, code):
        return re.sub(r"(?<![\w'.-])[a-z][\w']*[A-Z][\w']*(?![\w'-])", lambda m: self.map.get(m.group(0), m.group(0)), code)

    def ticked(self, text):
        def inside(m):
            return "`" + re.sub(r"[a-z][\w'-]*", lambda t: self.map.get(t.group(0), t.group(0)), m.group(1)) + "`"

        return re.sub(r"`([^`\n]*)`", inside, text)

    def clashes(self):
        """Where a new spelling already stands, as a name of its own, in a file that has the old one."""
        found = []
        for p, text in self.texts.items():
            if p.endswith(".rt"):
                for m in re.finditer(r"\bfn \w+(?:<[^>]*>)?\(([^)]*)\)", text):
                    params = set(re.findall(r"(\w+)\s*:", m.group(1)))
                    clauses = text[m.end() : text.find("\n{", m.end())]
                    for t in set(TOKEN.findall(clauses)):
                        if self.map.get(t) in params:
                            found.append(f"{p}: {t} would be the parameter {self.map[t]}")
                continue
            t = bare(text)
            words = {m.group(0) for m in TOKEN.finditer(t) if t[m.start() - 1 : m.start()] != "." and t[m.end() : m.end() + 1] != "."}
            new = collections.defaultdict(set)
            for w in words:
                if w in self.theirs[p] or w in self.goals[p]:
                    new[w].add(w)
                elif w in self.map:
                    new[self.map[w]].add(w)
                elif WORD.match(w) and "-" in w and not is_proof(p):
                    new[snake(w)].add(w)
                else:
                    new[w].add(w)
            found += [f"{p}: {sorted(ws)} would all be {n}" for n, ws in new.items() if len(ws) > 1]
        return found


def rename_crate(root, old, new):
    """A crate under another name: its folder, the lines of crates.txt, and the paths that name it."""
    if not os.path.isdir(os.path.join(root, "crates", old)):
        return
    os.rename(os.path.join(root, "crates", old), os.path.join(root, "crates", new))
    for p in list(files(root, (".rt", ".antt"))):
        text = read(p)
        turned = re.sub(rf"\bRattle\.{old}\.", f"Rattle.{new}.", text)
        if p.endswith(".rt"):
            turned = re.sub(rf"(?<![\w:])(use )?{old}::", lambda m: (m.group(1) or "") + new + "::", turned)
        if turned != text:
            with open(p, "w", encoding="utf-8") as f:
                f.write(turned)
    p = os.path.join(root, "crates.txt")
    text = read(p)
    with open(p, "w", encoding="utf-8") as f:
        f.write(re.sub(rf"(?m)(?<![\w.]){old}(?=[ :\n])", new, text))


def main():
    root = os.getcwd()
    names = Names(root)
    if "--map" in sys.argv:
        for a, b in sorted(names.map.items()):
            print(a, b)
    bad = names.clashes()
    for b in bad:
        print("clash:", b.replace(root + "/", ""))
    if bad or "--map" in sys.argv:
        return 1
    for p, text in names.texts.items():
        new = names.turn(p, text)
        if new != text:
            with open(p, "w", encoding="utf-8") as f:
                f.write(new)
    for old, new in CRATES.items():
        rename_crate(root, old, new)
    for folder in (".", "docs", "docs/landings", "host"):
        for f in sorted(os.listdir(folder)):
            if f.endswith(".md"):
                p = os.path.join(folder, f)
                text = read(p)
                new = names.ticked(text)
                if new != text:
                    with open(p, "w", encoding="utf-8") as out:
                        out.write(new)
    return 0


if __name__ == "__main__":
    raise SystemExit(main())
