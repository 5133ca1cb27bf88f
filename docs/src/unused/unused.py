#!/usr/bin/env python3
"""Definitions, imports and files of crates/*/specs and crates/*/proofs that nothing uses.

    unused.py [ROOT]      ROOT is the repository; the default is the one that this file stands in

One line a finding, with its file and line, or `no unused definition`; then the exit status is 1 or 0.

A definition is used when one of these reaches it, by names in types and in bodies:
  - a contract in src/*.rt
  - the theorem of all claims, calls/proofs/Claims.antt; so a claim without a field there is a finding too
  - the theorem of a function, in its Proof.antt
  - a name of the list KEPT below, which are kept on purpose
A name that a definition binds itself, as an argument or by `let`, is not taken as a use of another definition of that
name. What a must-fail edit names is not used by it. Fields and constructors are not looked at.
"""
import re
import sys
from pathlib import Path

# What nothing uses and is kept: the crate, the file, the name, and why. The name `*` keeps a whole file.
KEPT = [
    ("lists", "proofs/Front.antt", "*", "the law of a loop that writes a list from the left, for functions to come"),
    ("fields", "proofs/RoundTrip.antt", "*", "a field that was written is read back, for fields with other tags"),
]

# A name, `[]`, or a dot.
TOKEN = re.compile(r"\[\][^\s(){}\[\];,.\"]*|\.|[^\s(){}\[\];,.\"`⌜⌝«»|]+")
MARKS = r"(?:(?:unfoldable|abbrev|pub|axiom) )*"
KEYWORDS = r"(?!data |record |module |use |mod |let |where\b)"
SIGNATURE = re.compile(r"( *)" + MARKS + KEYWORDS + r"([^\s(){}\[\];,.:]+)(?: \{[^{}:=]*\})* :(?= |$)")
TYPE = re.compile(r"( *)" + MARKS + r"(?:data|record) ([^\s(){}]+)")
MODULE = re.compile(r"( *)module ([^\s]+)")
USE = re.compile(r"(?:ghost |pub |unfoldable )*use ([^\s{};]+?)(?:\.\{([^}]*)\}| as ([^\s;]+))?;?\s*$")
PATH = re.compile(r"Rattle·([\w]+)(?:·(?:specs|proofs))?\.(specs|proofs)\.([^\s(){}\[\];,]+)")


def strip_comment(line):
    """The line without its comment."""
    if line.lstrip().startswith(("--", "//")):
        return ""
    at = line.find(" -- ")
    return line if at < 0 else line[:at]


def module_of(path):
    """(crate, folder, module) of a whole path, or None if it is no file of a crate."""
    m = PATH.fullmatch(path)
    return (m[1], m[2], m[3]) if m else None


def tokens(text):
    return TOKEN.findall(text)


class Item:
    """A definition: its name, its line, the text of it, and the text of the module blocks around it."""

    def __init__(self, name, line, mark, lines, around):
        self.name, self.line, self.mark = name, line, mark
        self.text = "\n".join(lines)
        self.around = around

    def binders(self):
        """The names that the definition binds itself."""
        found = set()
        text = self.around + "\n" + self.text
        for group in re.finditer(r"[({]\s*((?:[^\s(){}\[\];,.:=]+\s+)+):\s", text):
            found.update(group[1].split())
        for group in re.finditer(r"λ ([^().=]+?)\.(?:\s|$)", text):
            found.update(tokens(group[1]))
        for group in re.finditer(r"\blet ([^\s(){}]+) (?=[:=])", text):
            found.add(group[1])
        for group in re.finditer(r"\blet \(([^()]*)\) =", text):
            found.update(tokens(group[1]))
        heads = {}
        for line in self.text.split("\n"):
            m = SIGNATURE.match(line)
            if m:
                heads[m[2]] = len(m[1])
                continue
            words = line.split()
            if words and heads.get(words[0]) == len(line) - len(line.lstrip()):
                left = re.split(r" =(?: |$)", line, maxsplit=1)
                if len(left) == 2:
                    found.update(t for t in tokens(left[0]) if t != ".")
        found.update(heads)
        for group in re.finditer(r"\b(?:elim|match)\b[^\[]*\[(.*)", text, re.S):
            for arm in re.finditer(r"([^|\[\]\n]+?) ↦", group[1]):
                found.update(t for t in tokens(arm[1]) if t != ".")
        return found - {self.name}


class File:
    def __init__(self, path, crate, folder, module):
        self.path, self.crate, self.folder, self.module = path, crate, folder, module
        self.key = (crate, folder, module)
        self.names = {}      # an imported name here: (its module, its name there, its line)
        self.modules = {}    # a name of a module here: (the module or None, its line)
        self.items = []
        self.body = []       # all lines but the `use` lines
        self.read()

    def read(self):
        lines = [strip_comment(line) for line in self.path.read_text().split("\n")]
        k = 0
        while k < len(lines):
            if re.match(r"(?:ghost |pub |unfoldable )*use ", lines[k]):
                first, text = k, lines[k]
                while "{" in text and "}" not in text:
                    k += 1
                    text += " " + lines[k]
                self.use(text, first + 1)
                self.body.append("")
                self.body.extend("" for _ in range(k - first))
            else:
                self.body.append(lines[k])
            k += 1
        if self.path.suffix == ".antt":
            self.split()

    def use(self, text, line):
        m = USE.match(text)
        if not m:
            return
        path, names, alias = m[1], m[2], m[3]
        module = module_of(path)
        if names is None:
            self.modules[alias or re.split(r"\.|::", path)[-1]] = (module, line)
            return
        if not names.strip():
            self.names["{} of " + path] = (module, None, line)
        for name in names.split(","):
            words = name.split()
            if words:
                self.names[words[-1]] = (module, words[0], line)

    def split(self):
        blocks = []          # the module blocks around: (indent, text)
        k, body = 0, self.body
        current = None       # (indent, name, line, mark, lines)

        def close():
            nonlocal current
            if current:
                self.items.append(Item(*current[1:], "\n".join(b[1] for b in blocks if b[0] < current[0])))
            current = None

        while k < len(body):
            line = body[k]
            indent = len(line) - len(line.lstrip())
            if line.strip():
                level = blocks[-1][0] + 2 if blocks else 0
                if indent < level:
                    close()
                    while blocks and indent < blocks[-1][0] + 2:
                        blocks.pop()
                    level = blocks[-1][0] + 2 if blocks else 0
                if indent == level:
                    m = MODULE.match(line)
                    if m:
                        close()
                        text = [line]
                        while not re.search(r"\bwhere\s*$", body[k]):
                            k += 1
                            text.append(body[k])
                        blocks.append((indent, "\n".join(text)))
                        k += 1
                        continue
                    m = TYPE.match(line) or SIGNATURE.match(line)
                    if m:
                        close()
                        mark = line[: m.start(2)]
                        current = (indent, m[2], k + 1, mark, [line])
                        k += 1
                        continue
                    if re.match(r" *(infix|infixr|infixl|pub mod|mod) ", line):
                        close()
                        k += 1
                        continue
            if current:
                current[4].append(line)
            k += 1
        close()


def parts(name):
    """The tokens by which a name is written between its arguments: those of `_≈_` are `≈`."""
    return [p for p in name.split("_") if p] if "_" in name and name.strip("_") else [name]


def written(name, row):
    """The name is among the tokens, between its arguments or by itself."""
    return name in row or all(p in row for p in parts(name))


def load(root):
    files = {}
    for folder in ("specs", "proofs"):
        for path in sorted(root.glob(f"crates/*/{folder}/**/*.antt")):
            crate = path.relative_to(root / "crates").parts[0]
            inner = path.relative_to(root / "crates" / crate / folder).with_suffix("")
            module = ".".join(inner.parts)
            f = File(path, crate, folder, module)
            files[f.key] = f
    sources = []
    for path in sorted(root.glob("crates/*/src/**/*.rt")):
        crate = path.relative_to(root / "crates").parts[0]
        f = File(path, crate, "src", path.stem)
        f.items.append(Item("", 1, "", f.body, ""))
        sources.append(f)
    return files, sources


class Names:
    """Which definitions a file's tokens mean."""

    def __init__(self, f, files):
        self.files = files
        self.own = {}
        for item in f.items:
            for p in parts(item.name) + [item.name]:
                self.own.setdefault(p, set()).add((f.key, item.name))
        self.imported = {}
        for name, (module, there, line) in f.names.items():
            if module in files and there:
                for p in parts(name) + [name]:
                    self.imported.setdefault(p, set()).add((module, there))
        self.modules = {name: module for name, (module, line) in f.modules.items() if module}

    def uses(self, item, here=True):
        found = set()
        text = item.around + "\n" + item.text
        bound = item.binders() if here else set()
        for m in re.finditer(r"Rattle·\w+(?:·\w+)?\.(?:specs|proofs)\.[^\s(){}\[\];,]+", text):
            path, _, name = m[0].rpartition(".")
            module = module_of(path)
            if module in self.files:
                found.add((module, name))
        row = tokens(text)
        for k, t in enumerate(row):
            if t == ".":
                continue
            if k >= 2 and row[k - 1] == "." and row[k - 2] in self.modules:
                found.add((self.modules[row[k - 2]], t))
            if t in bound:
                continue
            found |= self.own.get(t, set())
            found |= self.imported.get(t, set())
        return found


def graph(files, sources):
    """What each definition names, and what the contracts name."""
    edges, named = {}, set()
    for f in files.values():
        names = Names(f, files)
        for item in f.items:
            edges.setdefault((f.key, item.name), set()).update(names.uses(item))
    for f in sources:
        names = Names(f, files)
        for item in f.items:
            named |= names.uses(item, here=False)
    return edges, named


def reached(edges, start):
    seen, todo = set(), list(start)
    while todo:
        node = todo.pop()
        if node in seen:
            continue
        seen.add(node)
        todo.extend(edges.get(node, ()))
    return seen


def is_root(f, item):
    if f.key == ("calls", "proofs", "Claims"):
        return True
    return f.module.split(".")[-1] == "Proof" and item.name.endswith("-spec")


def kept(f, name):
    inner = f.folder + "/" + f.module.replace(".", "/") + ".antt"
    return any(c == f.crate and p == inner and n in (name, "*") for c, p, n, why in KEPT)


def main():
    root = Path(sys.argv[1]) if len(sys.argv) > 1 else Path(__file__).resolve().parents[3]
    files, sources = load(root)
    edges, named = graph(files, sources)
    start = set(named)
    for f in files.values():
        for item in f.items:
            if is_root(f, item) or kept(f, item.name):
                start.add((f.key, item.name))
    seen = reached(edges, start)
    findings = []

    def say(f, line, text):
        findings.append((str(f.path.relative_to(root)), line, text))

    for f in files.values():
        unused = [item for item in f.items if (f.key, item.name) not in seen]
        if f.items and len(unused) == len(f.items):
            say(f, 1, f"unused file ({len(unused)} definitions)")
        else:
            for item in unused:
                say(f, item.line, f"unused definition {item.name}")
    for crate, inner, name, why in KEPT:
        f = files.get((crate, inner.split("/")[0], inner.split("/", 1)[1].removesuffix(".antt").replace("/", ".")))
        if not f or name != "*" and all(item.name != name for item in f.items):
            findings.append((f"crates/{crate}/{inner}", 1, f"kept and not there: {name}"))
    for f in list(files.values()) + sources:
        text = "\n".join(f.body)
        row = set(tokens(text))
        if f.folder == "src":
            row |= set(re.findall(r"\w+", text))
        for name, (module, there, line) in f.names.items():
            if there is None:
                say(f, line, f"empty import {name}")
            elif not written(name, row):
                say(f, line, f"unused import {name}")
        for name, (module, line) in f.modules.items():
            if name not in row:
                say(f, line, f"unused import {name}")
    for path, line, text in sorted(findings):
        print(f"{path}:{line}: {text}")
    if not findings:
        print("no unused definition")
    return 1 if findings else 0


if __name__ == "__main__":
    sys.exit(main())
