"""What the scripts of this folder read of the repository, as text: the crates in their order, the must-fail edits, the functions with their contracts."""
import pathlib
import re
import subprocess

TOP = pathlib.Path(__file__).resolve().parent.parent
CRATES = TOP / "crates"

# A function's head: the comment over it, `pub`, its name, what it is generic over, and its parameters.
GENERIC = r"(?:<(?:->|[^<>()]|\([^()]*\)|<[^<>]*>)*>)?"
HEAD = re.compile(rf'^((?: *//[^\n]*\n)*) *(?:#\[[^\n]*\]\n *)*(pub )?(?:extern "C" )?fn (\w+){GENERIC}\(((?:[^()]|\([^()]*\))*)\)', re.M)


def crates():
    """The crates of crates.txt, lowest first."""
    lines = (TOP / "crates.txt").read_text().splitlines()
    return [line.split(":")[0].split()[0] for line in lines if ":" in line and not line.startswith("#")]


class Edit:
    """A must-fail edit: its name, why it is wrong, and its replacements (file, old text, new text)."""

    def __init__(self, path):
        self.path, self.label, self.crate = path, path.stem, path.parent.parent
        self.why, self.pairs = "", []
        file = old = None
        for line in path.read_text().splitlines():
            if line.startswith("# ") and not self.why:
                self.why = line[2:]
            elif line.startswith("file: "):
                file = line[6:].strip()
            elif line.startswith("old: "):
                old = line[5:]
            elif line.startswith("new:") and old is not None:
                self.pairs.append((file, old, line[4:].removeprefix(" ")))
                old = None


def edits(crate):
    return [Edit(path) for path in sorted((CRATES / crate / "must-fail").glob("*.edit"))]


class Function:
    """A function of a source file, with the comment over it and its clauses as they are written."""

    def __init__(self, head, block):
        self.start, self.public, self.name = head.start(), bool(head[2]), head[3]
        taken = re.sub(r"<[^<>]*>|\([^()]*\)", "", head[4])
        self.parameters = [p.split(":")[0].strip() for p in taken.split(",") if p.strip()]
        self.comment = " ".join(line.strip()[2:].strip() for line in head[1].strip().splitlines() if line.strip())
        clauses = re.split(r"\n *\{\n", block, maxsplit=1)[0]
        indent = re.search(r"^( *)(?:pub )?(?:extern \"C\" )?fn ", block, re.M)[1]
        close = re.search(rf"^{indent}\}}$", block, re.M)
        self.end = self.start + (close.end() if close else len(block))
        self.requires, self.ensures = (self.clause(clauses, kind) for kind in ("requires", "ensures"))

    @staticmethod
    def clause(text, kind):
        found = re.findall(r"^\s+" + kind + r"(?: \w+)? \{ (.*?) \}\s*$", text, re.M)
        return [" ".join(one.split()) for one in found]


def functions(crate):
    """The functions of a crate, by source file (as an edit names it): file -> (text, functions in their order)."""
    found = {}
    for path in sorted((CRATES / crate / "src").rglob("*.rt")):
        text = path.read_text()
        heads = list(HEAD.finditer(text))
        ends = [head.start() for head in heads[1:]] + [len(text)]
        found[str(path.relative_to(CRATES / crate))] = (text, [Function(h, text[h.start():e]) for h, e in zip(heads, ends)])
    return found


def tracked():
    """The files under version control and those that are new."""
    out = subprocess.run(["git", "ls-files", "-co", "--exclude-standard"], cwd=TOP, capture_output=True, text=True, check=True)
    return sorted(name for name in out.stdout.splitlines() if (TOP / name).is_file())
