#!/usr/bin/env python3
"""Turns proofs/F/Proof.antt of the older Rattle, which names a proof for each goal, into proofs/F/Invariants.antt and proofs/F/Answers.antt of today's.

usage: answers.py [--hand] CRATE..     at the top of the repository; the crates below each must be proved

`rt check --generated DIR --old-names` says how goals, places, steps and loops are called now. A goal that the check finds alone is left out (`search rules`), chains of `.before` go,
and what is handed a place by name is handed it again. What it can't turn it says, and leaves as it was. It proves nothing: rt check decides.
"""
import json
import os
import re
import shutil
import subprocess
import sys
import tempfile

# whether a function with lemmas over places stays a Proof.antt (--hand)
HAND = False
W = r"[^\s(){}\[\];,.\"`|]+"


def norm(n):
    return n.replace("_", "-")


def need(n):
    """A goal's name of the older Rattle as names.json has it."""
    n = re.sub(r"^overflow-", "", norm(n))
    n = re.sub(r"^slice-bounds-(.*)-(start|end)((?:-\d+)?)$", r"part-\1-\2\3", n)
    return re.sub(r"^nonzero-(div|rem)", r"\1", n)


def chunks(text):
    """The declarations of a file: (comments and blank lines before, lines)."""
    out, head, body = [], [], []
    name = None
    for line in text.split("\n"):
        if line and not line[0].isspace() and line[0] not in ")]}":
            if line.startswith("--"):
                if body:
                    out.append((head, body))
                    head, body, name = [], [], None
                head.append(line)
                continue
            first = re.match(r"(?:pub |abbrev |unfoldable )*(" + W + ")", line).group(1)
            if body and (line.startswith("unfolding ") or (first == name and not re.match(r"(?:pub |abbrev |unfoldable )*" + re.escape(first) + r" :", line))):
                body.append(line)
                continue
            if body:
                out.append((head, body))
                head, body = [], []
            name = first
            body.append(line)
        elif body:
            body.append(line)
        elif line:
            head.append(line)
    if body or head:
        out.append((head, body))
    return [(h, b[: max([i for i, l in enumerate(b) if l.strip()], default=-1) + 1]) for h, b in out]


class Function:
    def __init__(self, names, said):
        self.said = said
        self.places, self.labels, self.new_place, self.callee = {}, {}, {}, {}
        for old, parent, (label, now), callee, _ in names["places"]:
            self.places[norm(old)] = norm(parent) if parent else None
            self.new_place[norm(old)] = old
            self.callee[norm(old)] = callee
            if label:
                self.labels.setdefault(norm(label), []).append((now, norm(old)))
        self.by_name = {norm(old): new for (old, *_), new in zip(names["places"], names["places_by_name"])}
        self.order = [new for _, new in names["needs"]]
        self.needs, self.at = {}, {}
        for (old, new), (at, _) in zip(names["needs"], names["asked_at"]):
            self.needs.setdefault(need(old), []).append(new)
            self.at[new] = norm(at)
        self.settled = {need(s) for s in names["settled"]}
        self.loops = {}
        for ((old, new), variables), changed in zip(names["loops"], names["changed"]):
            self.loops[norm(old)] = (new, variables, changed)
        self.arms = {}
        for arm, (old, *_) in zip(names["arms"], names["places"]):
            if arm:
                self.arms[norm(old)] = arm
        self.params = names["params"]
        self.args = [(a.replace(" ", ""), b.replace(" ", "")) for a, b in names["args"] if a.startswith(".")]
        self.names = names

    def hops(self, at, to):
        n = 0
        while at and at != to:
            at, n = self.places.get(at), n + 1
        return n if at else None

    def place(self, old):
        return self.new_place.get(norm(old))

    def whole(self, at):
        """The place where an arm has all its names: the last of those that the older Rattle made of it."""
        while at in self.arms:
            more = [q for q, p in self.places.items() if p == at and q in self.arms and self.arms[q][0] == self.arms[at][0]]
            if len(more) != 1:
                break
            at = more[0]
        return at


def substitute(body, values):
    """The body with its variables named otherwise; lets where a binder hides one."""
    hidden = [v for v in values if re.search(r"(?:λ |[({])(?:[^():→]* )?" + re.escape(v) + r"(?: [^():→]*)? ?[:.]", body)]
    lets = "".join(f"let {v} = {values[v]} in " for v in hidden if re.search(r"(?<![\w.'₀-])" + re.escape(v) + r"(?![\w'₀-])", body))

    def one(m):
        t = m.group(0)
        before = body[m.start() - 1 : m.start()]
        return values[t] if before != "." and t in values and t not in hidden else t

    return lets + re.sub(W, one, body)


def uncycled(text):
    """The proof of a function that calls itself, as if it were another's; and the number of the argument that is its measure, None where it isn't so plain."""
    lts = set(re.findall(r"use \S+\.(Lts-\S+) as (" + W + ")", text))
    measure = re.search(r"(?m)^μ-?\S* κs a = a((?:\.[01])+)$", text)
    if len(lts) != 1 or not measure:
        return text, None
    lts = next(iter(lts))[1]
    text = re.sub(r"(?m)^(" + W + r") : \(t : ℕ\) → " + re.escape(lts) + r"\.(Need-\S+) \([\s\S]*?\n(?=(?:unfolding .*\n)?\1 t )", r"\1 : tie.\2\n", text)
    text = re.sub(r"(?m)^(" + W + r" : tie\.Need-\S+\n(?:unfolding .*\n)?" + W + r") t ", r"\1 ", text)
    text = text.replace(lts + ".", "tie.")
    out = []
    for part in re.split(r"\n\n+", text):
        if re.match(r"(?:abbrev )?\S+ : (?:Measures |ℕ → In )", part) or re.search(r"statement|tie\.spec|\bclose\b", part) and not part.startswith(("--", "use ")):
            continue
        out.append(part)
    text = "\n\n".join(out)
    text = re.sub(r"(?m)^use (borrow\.Fn\.|\S+ as |\S+\.\{statement\}|\S+\.Tie\.).*\n?", "", text)
    path = measure.group(1)
    return text + ("" if text.endswith("\n") else "\n"), path.count("1")


def turn(root, crate, f, names, said):
    folder = os.path.join(root, "crates", crate, "proofs", f)
    path = os.path.join(folder, "Proof.antt")
    text = open(path, encoding="utf-8").read()
    measure = None
    if f.startswith("+"):
        text, measure = uncycled(text)
        if measure is None:
            said(f"{f}: left as it is (a cycle)")
            return False
    t = "t " if measure is not None else ""
    fn = Function(names, said)
    uses, decls = [], []
    parts = chunks(text)
    header = parts[0][0] if parts else []
    for i, (head, body) in enumerate(parts):
        if body and body[0].startswith("use "):
            uses += body
            continue
        decls.append((head if i else [], body))
    place_fns, helpers, spec = {}, {}, None
    parsed = []
    for head, body in decls:
        m = re.match(r"((?:pub |abbrev |unfoldable )*)(" + W + r") :(.*)", body[0])
        if body[0].startswith(("module ", "record ", "data ", "infix")):
            parsed.append([head, "", "", None, body])
            continue
        if not m:
            said(f"{f}: not understood: {body[0][:80]}")
            return False
        sig = [m.group(3)]
        k = 1
        while k < len(body) and body[k][:1].isspace():
            sig.append(body[k])
            k += 1
        sig = "\n".join(sig)
        rest = body[k:]
        parsed.append([head, m.group(1), m.group(2), sig, rest])
    written = None
    inv_args = re.compile(r"tie\.(" + W + r")((?: [a-z][\w-]*)*)")
    blocks = ["\n".join(head + body) for head, _, _, sig, body in parsed if sig is None]
    parsed = [p for p in parsed if p[3] is not None]
    loops_named = [p[2] for p in parsed if re.search(r"tie\.(invariant|decreases)", p[3])]
    loop_names = {}
    for p in parsed:
        m = re.match(r"\s*tie\.(invariant|decreases)-(" + W + ")", p[3])
        if m and norm(m.group(2)) in fn.loops:
            loop_names[p[2]] = f"{m.group(1)}-{fn.loops[norm(m.group(2))][0]}"

    def types(sig):
        def one(m):
            name = norm(m.group(1))
            new = fn.by_name.get(fn.whole(name))
            if not new:
                return m.group(0)
            if not HAND:
                imported.add(new)
                return new
            if by_hand:
                return "tie." + new + re.sub(W, lambda x: loop_names.get(x.group(0), x.group(0)), m.group(2))
            rest = m.group(2).split(" ")[1:]
            rest = [x for x in rest if x not in loops_named]
            args = " ".join(f"goal.the-{kind}-{new_loop}" for kind in ("invariant", "decreases") for (new_loop, _, _) in [fn.loops[o] for o in fn.loops]) if loops_named and m.group(2) else ""
            return "tie." + new + (" " + args if args else "") + "".join(" " + x for x in rest)

        return inv_args.sub(one, sig)

    def place_of_type(sig):
        m = re.match(r"\s*(?:\(" + W + r" : )?tie\.(" + W + r")", sig)
        return norm(m.group(1)) if m and norm(m.group(1)) in fn.places else None

    for head, mods, name, sig, rest in parsed:
        p = place_of_type(sig)
        if p:
            q = re.search(r"→ tie\.(" + W + r")(?: [a-z][\w-]*)*$", sig.strip())
            if q and sig.count("→") == 1 and norm(q.group(1)) in fn.places:
                place_fns[name] = (p, norm(q.group(1)))
            else:
                helpers[name] = fn.whole(p)

    # abbreviations over a place are written out where they stand
    inline = {}
    for head, mods, name, sig, rest in parsed:
        if name in helpers and "abbrev" in mods and not re.match(r"\s*\(", sig) and sig.count("→") == 1:
            c = re.match(re.escape(name) + r" (" + W + r") =\s*(.*)", "\n".join(l for l in rest if not l.startswith("unfolding ")), re.S)
            if c:
                inline[name] = c.groups()
                del helpers[name]
    lemmas = [h for h in helpers]
    by_hand = bool(lemmas) and HAND
    imported = set()

    def expand(text):
        """The text with each abbreviation over a place written out."""
        for _ in range(400):
            found = None
            for name in inline:
                found = re.search(r"(?<![\w.'-])" + re.escape(name) + r" (?=[\w(])", text)
                if found:
                    break
            if not found:
                return text
            i = found.end()
            if text[i] == "(":
                depth, j = 0, i
                while True:
                    depth += {"(": 1, ")": -1}.get(text[j], 0)
                    j += 1
                    if depth == 0:
                        break
                arg = text[i:j]
            else:
                j = i + re.match(r"[^\s(){}\[\];,\"`|]+", text[i:]).end()
                arg = text[i:j]
            var, body = inline[name]
            put = re.sub(r"(?<![\w.'-])" + re.escape(var) + r"(?![\w'-])", lambda m: arg, body.strip())
            # in brackets where it is a word of a larger term
            put = re.sub(r"\(\(([^()]*)\)\)", r"(\1)", put)
            tight = re.match(r"^[\w'.-]+$|^\(.*\)(?:\.[\w-]+)*$", put)
            text = text[: found.start()] + (put if tight else "(" + put + ")") + text[j:]
        return text

    def body_of(text, var, place, is_view, goal=None):
        return flat(expand(text), var, place, is_view and not by_hand, goal)

    def flat(text, var, place, is_view, goal):
        """The text with its chains and labels turned. var: the variable that holds a place."""
        env = {var: (place, is_view)}
        place_word = lambda: "(?:" + "|".join(re.escape(v) for v in env) + ")"
        changed = True
        while changed:
            changed = False
            new = re.sub(r"(?<![\w.'-])(" + "|".join(re.escape(v) for v in env) + r")(?:\.before)+(?![\w'-])", r"\1", text)
            for g in place_fns:
                new = re.sub(r"(?<![\w.'-])" + re.escape(g) + r" (" + "|".join(re.escape(v) for v in env) + r")(?![\w'-])", r"\1", new)
                new = re.sub(r"(?<![\w.'-])" + re.escape(g) + r" \((" + "|".join(re.escape(v) for v in env) + r")\)", r"\1", new)
            new = re.sub(r"(?<![\w'-])\((" + "|".join(re.escape(v) for v in env) + r")\)(?=\.| |\)|,|;|$)", r"\1", new)
            for v in list(env):
                for m in re.finditer(r"let (" + W + r") = " + re.escape(v) + r" in(\s)", new):
                    x = m.group(1)
                    new = new[: m.start()] + new[m.end() :]
                    # `rw e at h`: the word, not a variable of that name
                    new = re.sub((r"\b(?:rw|simp) [^()]*? at(?= )|" if x == "at" else "") + r"(?<![\w.'-])" + re.escape(x) + r"(?![\w'-])", lambda y: v if y.group(0) == x else y.group(0), new)
                    break
            if new != text:
                text, changed = new, True
        for h, p in helpers.items():
            def one(m):
                n = fn.hops(place, p)
                if n is None:
                    said(f"{f}: {h} at {place} wants {p}")
                    return m.group(0)
                if not HAND:
                    return h + " " + (var if n == 0 else f"(goal.at.{goal or fn.by_name[place]} {var}).{fn.by_name[p]}")
                return h + " " + var + ".before" * (n + (1 if is_view else 0))

            text = re.sub(r"(?<![\w.'-])" + re.escape(h) + r" " + re.escape(var) + r"(?![\w'.-])", one, text)
        # labels
        on_path = set()
        at = place
        while at:
            on_path.add(at)
            at = fn.places.get(at)

        def label(m):
            old = norm(m.group(2))
            found = fn.labels.get(old) or fn.labels.get(re.sub("-lem$", "", old))
            if not found:
                return m.group(0)
            here = [x for x in found if x[1] in on_path] or found
            now, of = here[0]
            arm = fn.arms.get(of)
            path = [x for x in (m.group(3) or "").split(".") if x]
            if arm and path[:1] in (["given"], ["ensures"]):
                fits = [(f, p) for f, _, p in arm[2] if p and path[: len(p)] == p]
                if fits:
                    f, p = max(fits, key=lambda x: len(x[1]))
                    return m.group(1) + "." + arm[0] + "." + f + "".join("." + x for x in path[len(p) :])
            return m.group(1) + "." + now + fields(m.group(3) or "", of)

        def fields(rest, of):
            rest = re.sub(r"\.inv(?![\w-])", ".invariant", rest)
            callee = fn.callee.get(of)
            if callee and callee in fn.params:
                rest = re.sub(r"^\.(new|old)\.(\d)", lambda m: f".{m.group(1)}." + (fn.params[callee][int(m.group(2))] if int(m.group(2)) < len(fn.params[callee]) else m.group(2)), rest)
                kept = re.match(r"^\.kept((?:\.1)*)\.0", rest)
                if kept and len(kept.group(1)) // 2 < len(fn.params[callee]):
                    rest = ".auto." + fn.params[callee][len(kept.group(1)) // 2] + rest[kept.end() :]
            arm = fn.arms.get(of)
            if rest.startswith(".given"):
                if arm:
                    said(f"{f}: arm {of}: {json.dumps(arm, ensure_ascii=False)} at {rest}")
            return rest

        # an arm that a let has named
        for m in list(re.finditer(r"let (" + W + r") = " + re.escape(var) + r"\.(" + W + r") in\s+", text)):
            if any(of in fn.arms for _, of in fn.labels.get(norm(m.group(2)), [])):
                text = text.replace(m.group(0), "", 1)
                text = re.sub(r"(?<![\w.'-])" + re.escape(m.group(1)) + r"(?=\.)", var + "." + m.group(2), text)
        # a name for all that an arm binds is written out
        while True:
            m = re.search(r"let (" + W + r") = (" + re.escape(var) + r"\." + W + r"\.given\.0(?:\.\d)*) in\s+", text)
            if not m:
                break
            text = text[: m.start()] + re.sub(r"(?<![\w.'-])" + re.escape(m.group(1)) + r"((?:\.\d+)+)(?![\w'-])", lambda x: m.group(2) + x.group(1), text[m.end() :])
        # a test of `!x` says now what x is
        text = re.sub(r"\bnot-(true|false) _ ((?:" + W + r"\.)+\1)(?![\w'-])", r"\2", text)
        text = re.sub(r"\bnot_(true|false) _ ((?:" + W + r"\.)+\1)(?![\w'-])", r"\2", text)
        text = text.replace(".well-formed", ".well_formed").replace(".type-inv", ".type_inv")
        text = re.sub(r"(?<=\.)(if\d+)\.left(?![\w'-])", r"\1.false", text)
        text = re.sub(r"(?<=[\w'])\.inv(?![\w'-])", ".invariant", text)
        text = re.sub(r"(?<![\w.'-])(" + re.escape(var) + r")\.pre(?![\w'-])", r"\1.requires", text)
        for a, b in fn.args:
            text = re.sub(r"(?<![\w'-])" + re.escape(var + a) + r"(?![\w'-])", var + b, text)
        return re.sub(r"(?<![\w.'-])(" + re.escape(var) + r")\.(" + W + r")((?:\." + W + r")*)", label, text)

    goals, inv = [], []
    carry = []
    for head, mods, name, sig, rest in parsed:
        # the heading of a section goes to the first of its declarations that stays
        carry = [l for l in head if l.startswith("-- ---- ")] or carry

        def headed():
            lines = ["\n".join(carry), ""] if carry and carry[0] not in head else []
            carry.clear()
            return lines + head

        if re.search(r"→ statement M|^ statement|: statement", " :" + sig) or "statement M" in sig:
            spec = rest
            continue
        clause = "\n".join(l for l in rest if not l.startswith("unfolding "))
        unfold = [l for l in rest if l.startswith("unfolding ")]
        m = re.match(r"\s*tie\.(invariant|decreases)-(" + W + ")", sig)
        if m:
            loop = fn.loops.get(norm(m.group(2)))
            if not loop:
                said(f"{f}: no loop {m.group(2)}")
                return False
            new, variables, changed = loop
            if by_hand:
                local = f"{m.group(1)}-{new}"
                inv.append("\n".join(head + [f"abbrev {local} : tie.{local}"] + unfold + [local + clause[len(name) :]]))
                continue
            c = re.match(re.escape(name) + r"((?: [^\s=]+)*) =(.*)", clause, re.S)
            args = c.group(1).split()
            n = len(variables)
            values = {}
            for a, v, ch in zip(args[:n], variables, changed):
                values[a] = ("l.initial." if ch else "l.") + v
            for a, v in zip(args[n:], [v for v, ch in zip(variables, changed) if ch]):
                values[a] = "l." + v
            if len(args) != n + sum(changed):
                said(f"{f}: {name} has {len(args)} arguments, expected {n + sum(changed)}")
            body = substitute(c.group(2), values)
            inv.append("\n".join(head + [f"abbrev pub {m.group(1)}-{new} : goal.{m.group(1)}-{new}"] + unfold + [f"{m.group(1)}-{new} l =" + body]))
            continue
        m = re.match(r"\s*tie\.Need-(" + W + ")", sig)
        if m:
            found = fn.needs.get(need(m.group(1)))
            if not found:
                if need(m.group(1)) not in fn.settled and not re.search("= search rules$", clause):
                    said(f"{f}: no goal for {m.group(1)}: {clause[:100]}")
                continue
            new = found.pop(0)
            c = re.match(re.escape(name) + r" (" + W + r")((?: [^\s=]+)*) =(.*)", clause, re.S)
            if not c:
                said(f"{f}: clause of {name}: {clause[:80]}")
                continue
            var, more, body = c.groups()
            if body.strip() == "search rules" and not by_hand:
                continue
            if by_hand:
                local = " ".join(f"{k}-{l}" for l, _, _ in fn.loops.values() for k in ("invariant", "decreases"))
                goals.append((headed(), name, new, [f"{new} : tie.Need-{new}" + (" " + local if local else "")] + unfold + [f"{new} {var}{more} ="], body_of(body, var, fn.at[new], True)))
                continue
            if more.strip() and re.search(r"(?<![\w.])" + re.escape(more.split()[0]) + r"(?![\w])", body):
                said(f"{f}: {name} uses {more}")
            body = body_of(body, var, fn.at[new], True, new)
            goals.append((headed(), name, new, [f"pub {new} : goal.{new}"] + unfold + [f"{new} {t}{var} ="], body))
            continue
        if name in place_fns or name in inline:
            continue
        p = helpers.get(name)
        newsig = types(sig)
        out = []
        for line in [clause]:
            c = re.match(re.escape(name) + r" (" + W + r")(.*)", line, re.S)
            if p and c and c.group(1) != "_":
                line = name + " " + c.group(1) + body_of(c.group(2), c.group(1), p, False)
        v = re.match(r"\s*\((" + W + r") : tie", sig)
        if p and v:
            newsig = body_of(newsig, v.group(1), p, False)
        goals.append((headed(), name, None, [f"{mods}{name} :"], newsig + "\n" + "\n".join(unfold + [line])))
    # goals that are cited by the name that the old file gave them
    rename = {name: new for _, name, new, _, _ in goals if new and name != new}
    texts = list(blocks)
    for head, name, new, first, body in goals:
        body = re.sub(r"\(\(([^()]*)\)\)", r"(\1)", re.sub(r"=\n {6,}(?=\S)", "=\n    ", body))
        body = re.sub(r"(?<=[\s(])\((\w(?:\.[\w'-]+)+)\)(?=[\s),]|$)", r"\1", body)
        body = re.sub(W, lambda m: rename.get(m.group(0), m.group(0)) if body[m.start() - 1 : m.start()] != "." else m.group(0), body)
        texts.append("\n".join(head + first) + body)
    # what the invariants cite of the file goes with them
    moved = []
    if not by_hand:
        more = list(inv)
        while more:
            words = set(re.findall(W, more.pop()))
            for g in goals:
                if g[2] is None and g[1] in words and g[1] not in helpers and g not in moved:
                    moved.append(g)
                    more.append("\n".join(g[3]) + g[4])
    for g in [g for g in goals if g in moved]:
        text = "\n".join(g[0] + g[3]) + g[4]
        texts.remove(text)
        first = re.sub(r"^((?:abbrev |unfoldable )*)(?:pub )?", r"\1pub ", g[3][0])
        inv.insert([h for h in goals if h in moved].index(g), "\n".join(g[0] + [first] + g[3][1:]) + g[4])
    module = f"Rattle.{crate}.proofs.{f.replace('/', '.')}"
    uses = [u for u in uses if not re.search(r"\.(Statement\.\{statement\}|Tie as tie)$", u)]
    head_lines = [l for l in header if l.startswith("--")]
    all_text = "\n\n".join(texts)
    inv_text = "\n\n".join(inv)

    def needed(text):
        words = set(re.findall(W, re.sub(r"(?m)^use .*$", "", text)))
        out = []
        for u in uses:
            m = re.match(r"use (\S+?)\.\{(.*)\}$", u)
            if not m:
                out.append(u)
                continue
            items = []
            for it in m.group(2).split(", "):
                w = it.split(" as ")[-1]
                op = re.sub("◌", "", w)
                if w in words or ("◌" in w and all(x in text for x in w.split("◌") if x)):
                    items.append(it)
            if items:
                out.append(f"use {m.group(1)}.{{{', '.join(items)}}}")
        return out

    files = {}
    if measure is not None:
        if by_hand:
            said(f"{f}: left as it is (a cycle with lemmas over places)")
            return False
        last = f.rsplit("/", 1)[-1].lstrip("+")
        of = next((v for k, v in fn.params.items() if k.split("::")[-1] == last), None)
        inv.insert(0, f"abbrev pub decreases-{last} : goal.decreases-{last}\ndecreases-{last} l = l.{of[measure]}")
        inv_text = "\n\n".join(inv)
    if by_hand:
        mine = {new for _, _, new, _, _ in goals if new}
        args = " ".join(f"{k}-{l}" for l, _, _ in fn.loops.values() for k in ("invariant", "decreases"))
        for new in fn.order:
            if new not in mine:
                texts.append(f"{new} : tie.Need-{new}" + (" " + args if args else "") + f"\n{new} = search rules")
                said(f"{f}: {new} is added")
        last = f.rsplit("/", 1)[-1]
        whole = (args.split(" ") if args else []) + fn.order
        close = f"pub {last}_spec : {{M : Type 1}} → statement M\n{last}_spec =\n    tie.close\n    (tie.spec\n    " + "\n    ".join(whole) + ")"
        body = "\n\n".join(inv + texts + [close])
        if "search rules" in body and not any("Rules.{rules}" in u for u in uses):
            uses.append("use borrow.Author.Rules.{rules}")
        lines = needed(body) + [f"use {module}.Statement.{{statement}}", f"use {module}.Tie as tie"]
        with open(path, "w", encoding="utf-8") as out:
            out.write("\n".join(head_lines + lines + ["", body, ""]))
        return True
    if inv:
        files["Invariants.antt"] = "\n".join(head_lines + needed(inv_text) + [f"use {module}.Given as goal", "", inv_text, ""])
    if texts:
        lines = needed(all_text)
        here = [g[1] for g in goals if g in moved and g[1] in set(re.findall(W, all_text))]
        if here:
            lines.append(f"use {module}.Invariants.{{{', '.join(here)}}}")
        if imported:
            lines.append(f"use {module}.Goals.{{{', '.join(sorted(imported))}}}")
        if "tie." in all_text:
            lines.append(f"use {module}.Tie as tie")
        files["Answers.antt"] = "\n".join(head_lines + lines + [f"use {module}.Goals as goal", "", all_text, ""])
    os.remove(path)
    for name, t in files.items():
        with open(os.path.join(folder, name), "w", encoding="utf-8") as out:
            out.write(t)
    return True


def main(argv):
    global HAND
    HAND = "--hand" in argv
    argv = [a for a in argv if a != "--hand"]
    root = os.getcwd()
    for crate in argv:
        where = os.path.join(root, "crates", crate)
        with tempfile.TemporaryDirectory() as d:
            r = subprocess.run(["rt", "check", "--generated", d, "--old-names"], cwd=where, stdout=subprocess.PIPE, stderr=subprocess.STDOUT, text=True)
            try:
                names = json.load(open(os.path.join(d, "names.json")))
            except OSError:
                print(f"{crate}: no names: {r.stdout[-1500:]}")
                continue
        shutil.os.makedirs("/tmp/port-names", exist_ok=True)
        json.dump(names, open(f"/tmp/port-names/{crate}.json", "w"), ensure_ascii=False)
        by = {k.split(".", 1)[1].rsplit(".Lts", 1)[0].replace(".", "/"): v for k, v in names.items() if ".Lts" in k}
        for folder, _, fs in sorted(os.walk(os.path.join(where, "proofs"))):
            if "Proof.antt" in fs:
                f = os.path.relpath(folder, os.path.join(where, "proofs"))
                text = open(os.path.join(folder, "Proof.antt"), encoding="utf-8").read()
                if (".Tie as tie" not in text and not f.startswith("+")) or f not in by:
                    print(f"{crate}: {f}: left as it is ({'by hand' if f in by else 'no names'})")
                    continue
                turn(root, crate, f, by[f], lambda s: print(f"{crate}: {s}"))


if __name__ == "__main__":
    main(sys.argv[1:])
