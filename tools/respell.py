#!/usr/bin/env python3
"""Respells the repository's own definitions and lemmas in snake case, once, behind the port of the sources.

Run at the top of the repository. A name counts as the repository's own if a file of specs/, or a file of lemmas in
proofs/, defines it. A dash stays where it joins the names of two functions; elsewhere a plain word follows `_`. Prints
what it renames, and the names that would fall together.
"""
import collections
import glob
import os
import re
import sys

IDENT = r"[^\s(){}\[\],;.:⟨⟩«»`\"]+"
DEFINED = re.compile(
    r"^(\s*)((?:pub|abbrev|unfoldable|data|record)\s+)*(%s)\s*((?:\{[^{}]*\}\s*)*)(?::|\s\().*" % IDENT)
LETTERS = re.compile(r"^[aAbB]+$")
STANDARD = {
    "length", "take", "drop", "append", "map", "set", "sets", "replicate", "reverse", "sum", "concat", "min", "max",
    "and", "or", "add", "sub", "mul", "div", "mod", "pow", "ltb", "leb", "eqb", "cond", "getD", "get_or", "filter",
}
# Names whose new form is taken already, or says something else there.
CHOSEN = {"nextValue": "next_value_lem", "b-side": "b_side_refuted", "bSide": "b_side"}
FILES = {"Contracts": "Promises"}


def lemma_files():
    return [f for f in glob.glob("crates/*/proofs/*.antt")]


def spec_files():
    return glob.glob("crates/*/specs/**/*.antt", recursive=True)


def snake(part):
    if LETTERS.match(part) or part[:1].isupper():
        return part
    part = re.sub(r"([a-z0-9])([A-Z])(?=[a-z0-9]|$)", lambda m: m.group(1) + "_" + m.group(2).lower(), part)
    part = re.sub(r"([a-z0-9])([A-Z]+)$", lambda m: m.group(1) + "_" + m.group(2).lower(), part)
    return part


def names_of(path):
    """Names that a file defines, each with its kind: `field` or constructor, or a definition."""
    found = []
    block = None
    for line in open(path, encoding="utf-8"):
        line = line.rstrip("\n")
        if line.lstrip().startswith("--") or line.lstrip().startswith("use ") or not line.strip():
            continue
        indent = len(line) - len(line.lstrip())
        if block is not None and indent <= block:
            block = None
        if re.match(r"\s*(pub\s+)?(record|data)\s", line):
            block = indent
            continue
        m = re.match(r"\s*deriving \S+ as (\S+)", line)
        if m:
            found.append((m.group(1), "definition"))
            continue
        # Several constructors or fields of one type.
        m = re.match(r"^\s*(?:pub\s+)?(%s(?:\s+%s)+)\s*:(\s|$)" % (IDENT, IDENT), line)
        if m and block is not None:
            found.extend((n, "field") for n in m.group(1).split() if n not in ("pub", "let"))
            continue
        m = re.match(r"^\s*((?:(?:pub|abbrev|unfoldable)\s+)*)(%s)\s*((?:\{[^{}]*\}\s*)*):(\s|$)" % IDENT, line)
        if not m or m.group(2) in ("let", "in", "where", "module", "_"):
            continue
        if re.match(r"^[\W\d_]+$", m.group(2)) and not m.group(2).startswith("'"):
            continue
        found.append((m.group(2), "field" if block is not None else "definition"))
    return found


def collect():
    kinds = collections.defaultdict(set)
    functions = set()
    for f in spec_files():
        for n, k in names_of(f):
            kinds[n].add(k)
            if k == "definition":
                functions.add(n)
    for f in lemma_files():
        for n, k in names_of(f):
            kinds[n].add("field" if k == "field" else "lemma")
    return kinds, functions


def new_name(n, kinds, functions):
    if n in CHOSEN:
        return CHOSEN[n]
    if n[:1].isupper() or n.startswith("'"):
        return n
    parts = n.split("-")
    out = snake(parts[0])
    for a, b in zip(parts, parts[1:]):
        joins = "lemma" in kinds and (a in functions or a in STANDARD) and (b in functions or b in STANDARD)
        out += ("-" if joins else "_") + snake(b)
    return out


def foreign_names():
    """Names that some file brings in from elsewhere than this repository."""
    out = set()
    own = {os.path.basename(c) for c in glob.glob("crates/*")}
    for f in glob.glob("crates/**/*.antt", recursive=True) + glob.glob("crates/**/*.rt", recursive=True):
        for m in re.finditer(r"^(?:ghost )?use ([^\s{]+?)\.\{([^}]*)\}", open(f, encoding="utf-8").read(), re.M):
            path = m.group(1).split(".")
            if path[0] == "Rattle" and path[1] in own:
                continue
            for item in m.group(2).split(","):
                out.add(item.strip().split(" as ")[0].strip())
                if " as " in item:
                    out.add(item.split(" as ")[1].strip())
    return out


def mapping():
    kinds, functions = collect()
    foreign = foreign_names()
    new = {}
    for n, k in kinds.items():
        m = new_name(n, k, functions)
        if m != n:
            if n in foreign:
                print("left, also brought in from elsewhere:", n)
                continue
            new[n] = m
    # Names that fall together in some file are told apart: a lemma that would have its function's name gets `_lem`.
    held = tokens_of_files()
    taken = collections.defaultdict(list)
    for n in kinds:
        taken[new.get(n, n)].append(n)
    suffix = {"definition": "_value", "lemma": "_lem", "field": "_is"}
    order = ["definition", "lemma", "field"]
    for m, olds in sorted(taken.items()):
        rank = {n: min(order.index(k) for k in kinds[n]) for n in olds}
        olds = sorted(olds, key=lambda n: (rank[n], not re.search("[a-z][A-Z]", n), n))
        for i, n in enumerate(olds):
            if i and any(n in words and any(o in words for o in olds[:i]) for words in held.values()):
                new[n] = m + suffix[order[rank[n]]]
                print("fell together:", olds, "->", n, "as", new[n])
    for n, m in sorted(new.items()):
        files = [f for f, words in held.items() if n in words and m in words and m not in new]
        if m in foreign or files:
            kind = order[min(order.index(k) for k in kinds[n])]
            if not m.endswith(suffix[kind]):
                new[n] = m + suffix[kind]
            print("taken in", files[:2], ":", n, "as", new[n])
    return new, kinds


def tokens_of_files():
    out = {}
    for f in glob.glob("crates/**/*.antt", recursive=True) + glob.glob("crates/*/src/**/*.rt", recursive=True):
        words = set()
        for line in open(f, encoding="utf-8"):
            line = re.sub(r"(^|\s)(--|//).*", "", line)
            for w in TOKEN.findall(line):
                words.update(w.split("."))
        out[f] = words
    return out


TOKEN = re.compile(r"[^\s(){}\[\],;:⟨⟩«»`\"]+")


def turn_code(text, new):
    """Identifiers of a text, those behind a dot too."""
    def token(m):
        w = m.group(0)
        pieces = w.split(".")
        return ".".join(new.get(p, p) for p in pieces)
    return TOKEN.sub(token, text)


def turn_comment(text, new):
    """A comment: camel case anywhere; a name with a dash only in backticks or where a line lists names."""
    text = re.sub(r"`[^`]*`", lambda m: "`" + turn_code(m.group(0)[1:-1], new) + "`", text)
    camel = {n: m for n, m in new.items() if re.search(r"[a-z0-9][A-Z]", n)}
    text = turn_code(text, camel)
    m = re.match(r"(\s*--     )(\S+)((?:\s.*)?)$", text)
    if m:
        text = m.group(1) + turn_code(m.group(2), new) + m.group(3)
    return text


def turn_antt(text, new):
    out = []
    for line in text.split("\n"):
        at = re.search(r"(^|\s)--(\s|$)", line)
        if at:
            cut = at.start()
            out.append(turn_code(line[:cut], new) + turn_comment(line[cut:], new))
        else:
            out.append(turn_code(line, new))
    return "\n".join(out)


def turn_rt(text, new):
    """Only ghost imports, clauses and comments of a source are turned."""
    text = re.sub(r"(?m)^(\s*ghost use )([^;]*);", lambda m: m.group(1) + turn_code(m.group(2), new) + ";", text)
    text = re.sub(r"(?m)^(\s*//)(.*)$", lambda m: m.group(1) + turn_comment(m.group(2), new), text)
    out, at = [], 0
    for m in re.finditer(r"(?m)^\s*(requires|ensures)\*?[^{\n]*\{", text):
        if m.start() < at:
            continue
        depth, k = 1, m.end()
        while depth:
            depth += {"{": 1, "}": -1}.get(text[k], 0)
            k += 1
        out.append(text[at:m.end()] + turn_code(text[m.end():k], new))
        at = k
    return "".join(out) + text[at:]


def turn_modules(text):
    for old, name in FILES.items():
        text = re.sub(r"(specs\.)%s\b" % old, r"\1" + name, text)
        text = re.sub(r"(?m)^(pub mod )%s$" % old, r"\1" + name, text)
    return text


def main():
    new, kinds = mapping()
    if "--list" in sys.argv:
        for n in sorted(new):
            print(n, new[n], ",".join(sorted(kinds[n])))
        return
    for f in sorted(glob.glob("crates/**/*.antt", recursive=True)):
        text = open(f, encoding="utf-8").read()
        turned = turn_modules(turn_antt(text, new))
        if turned != text:
            open(f, "w", encoding="utf-8").write(turned)
    for f in sorted(glob.glob("crates/*/src/**/*.rt", recursive=True)):
        text = open(f, encoding="utf-8").read()
        turned = turn_modules(turn_rt(text, new))
        if turned != text:
            open(f, "w", encoding="utf-8").write(turned)
    for old, name in FILES.items():
        for f in glob.glob("crates/*/specs/%s.antt" % old):
            os.rename(f, os.path.join(os.path.dirname(f), name + ".antt"))
    print("renamed", len(new), "names")


main()
