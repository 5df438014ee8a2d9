#!/usr/bin/env python3
"""Brings this repository's own definitions and lemmas to the spelling of today's Rattle, once, after port.py: words in snake case, modules in camel case.

A word in camel case becomes snake case. A dash in the name of a definition or a field becomes an underscore; in the name of a lemma it stays between two names (of definitions or functions) and becomes an
underscore elsewhere; one that would have its definition's name gets `_lem`. A value that begins with a capital becomes small, but for the names that the documents give (WTR, B, LF ..). Folders of theorems get a capital. Names that would fall together are told, and
nothing is written. Run at the top: tools/respell.py [FOLDER]
"""
import collections
import glob
import os
import re
import subprocess
import sys

ROOT = sys.argv[1] if len(sys.argv) > 1 else "."
NAME = r"[^\W\d][\w'′]*(?:-[\w'′]+)*"
TOKEN = re.compile(r"(?<![\w'′-])" + NAME)
DECLARED = re.compile(r"^(\s*)((?:(?:abbrev|unfoldable|pub|data|record|ruleset)\s+)*)(" + NAME + r"(?:\s+" + NAME + r")*)((?:\s+[({].*?)?)\s*:(?:\s(.*))?$")
# Names that the documents give, or that Rust constants have.
KEPT = {"FS", "SF", "SD", "MS", "WTR", "IDLE", "LF"}
# Words of the library that lemmas here speak of.
LIBRARY = {"length", "drop", "take", "append", "set", "map", "get", "replicate", "and", "or", "not", "cond", "add", "sub", "mul", "div", "suc", "pow"}
FOLDERS = ["bandwidth", "roundtrip", "unique", "contracts", "steering", "demand1", "demand2", "demand3", "spans", "wrong", "forgetting"]
# Two that would fall together, or read as another word.
CHOSEN = {}


def files(*patterns):
    return sorted(f for p in patterns for f in glob.glob(os.path.join(ROOT, p), recursive=True) if os.path.isfile(f) and "/out/" not in f)


def snake(word):
    word = re.sub(r"(?<=[a-z0-9])([A-Z])", lambda m: "_" + m.group(1).lower(), word)
    return word.replace("′", "'")


class Declared:
    def __init__(self):
        self.lemmas, self.words, self.fields, self.types, self.walked = set(), set(), set(), set(), set()

    def read(self, path):
        lines = open(path).read().split("\n")
        walked = path.endswith("/Proof.antt")
        inside = None
        for at, line in enumerate(lines):
            text = line.split(" --")[0]
            if re.match(r"^\s*(use|pub use|mod|pub mod|--|let|in|unfolding)\b", text):
                continue
            if not text.strip():
                continue
            if not text.startswith(" "):
                inside = None
            found = DECLARED.match(text)
            if not found:
                continue
            indent, marks, names, _, kind = found.groups()
            kind = kind or ""
            follow = at + 1
            alone = not kind.strip()
            while follow < len(lines) and re.match(r"^\s+\S" if alone else r"^\s+(→|->)", lines[follow]):
                kind += " " + lines[follow].strip()
                follow += 1
            names = [n for n in names.split() if n not in ("where",)]
            if "data " in marks or "record " in marks:
                self.types.update(names[:1])
                inside = "record" if "record " in marks else "data"
                continue
            for name in names:
                if walked:
                    self.walked.add(name)
                elif indent and inside:
                    self.fields.add(name)
                elif re.search(r"Type \d+\)?\s*$", kind.strip()):
                    self.types.add(name)
                elif re.search(r"≡|≤|<|⊥|[A-Z]\w+ ", re.sub(r"\((?:[^()]|\([^()]*\))*:(?:[^()]|\([^()]*\))*\)", "", kind)) and "abbrev" not in marks and "unfoldable" not in marks:
                    self.lemmas.add(name)
                else:
                    self.words.add(name)


def lemma(name, known, functions):
    name = snake(name)
    for function in sorted(functions, key=len, reverse=True):
        if "_" in function:
            name = re.sub(rf"(^|-){function.replace('_', '-')}(?=-|$)", lambda m: m.group(1) + function, name)
    parts = name.split("-")
    out = parts[0]
    for left, right in zip(parts, parts[1:]):
        out += ("-" if left in known and right in known else "_") + right
    return out


def renamed(d, functions):
    words = {snake(w).replace("-", "_") for w in d.words | d.types}
    known = words | functions | LIBRARY
    to = {}
    for name in d.words | d.fields:
        new = snake(name).replace("-", "_")
        if new[0].isupper() and name not in KEPT and len(name) > 1 and name not in d.types:
            new = new.lower()
        to[name] = new
    for name in d.lemmas - d.words - d.fields:
        new = lemma(name, known, functions)
        if new in words:
            new += "_lem"
        if new[0].isupper() and name not in KEPT and len(name) > 1 and name not in d.types:
            new = new[0].lower() + new[1:]
        to[name] = new
    to.update(CHOSEN)
    return {a: b for a, b in to.items() if a != b and a not in d.types}


def collisions(to, paths):
    """In one file two names become one, or one becomes a name that stands there. A path that ends in the name is none."""
    said = []
    for path in paths:
        text = re.sub(r"--.*|//.*", "", open(path).read())
        back = collections.defaultdict(set)
        for name in set(TOKEN.findall(re.sub(r"(?<=[.])" + NAME + r"(?=[.])|(?<=[.])" + NAME + r" as|\bfn \w+", "", text))):
            back[to.get(name, name)].add(name)
        said += [f"{path}: {sorted(olds)} fall together as {b}" for b, olds in back.items() if len(olds) > 1]
    return said


def turned(text, to, fields, code):
    def put(m):
        name = m.group(0)
        if m.start() and text[m.start() - 1] == ".":
            before = re.search(r"([\w'.)]*)\.$", text[max(0, m.start() - 60):m.start()])
            qualifier = before.group(1).split(".")[-1] if before else ""
            module = qualifier[:1].isupper() or qualifier in fields["aliases"]
            if not (name in fields["fields"] or module or snake(name) != name):
                return name
        new = to.get(name)
        if new is None and re.search(r"(^|-)[a-z][a-z0-9]*[A-Z]", name) and not re.match(r"[A-Z]", name):
            new = snake(name) if code else None
        return new or name

    return TOKEN.sub(put, text)


def in_clauses(text, change):
    """What `change` makes of a source: its imports for clauses and its clauses alone."""
    out, at = [], 0
    for head in re.finditer(r"\bghost use [^;]*;|\b(?:requires|ensures)\*?(?: \w+)? \{", text):
        if head.start() < at:
            continue
        end = head.end()
        depth = 0 if text[end - 1] == ";" else 1
        while depth:
            depth += {"{": 1, "}": -1}.get(text[end], 0)
            end += 1
        out += [text[at:head.start()], change(text[head.start():end])]
        at = end
    return "".join(out) + text[at:]


def main():
    antt = files("crates/*/specs/**/*.antt", "crates/*/proofs/**/*.antt")
    rust = files("crates/*/src/**/*.rt")
    d = Declared()
    for path in antt:
        d.read(path)
    functions = set(re.findall(r"\bfn (\w+)", "\n".join(open(p).read() for p in rust)))
    to = renamed(d, functions)
    said = collisions(to, antt)
    if said and "--anyway" not in sys.argv:
        print("\n".join(said))
        print(f"respell: {len(said)} names fall together; nothing is written")
        return 1
    known = {"fields": d.fields | d.words, "aliases": set()}
    docs = files("README.md", "docs/**/*.md")
    for path in antt + rust + files("crates/*/must-fail/*.edit"):
        old = open(path).read()
        known["aliases"] = set(re.findall(r"\bas (\w+)", old)) - {"tie", "goal"}
        change = lambda part: turned(part, to, known, True)
        new = in_clauses(old, change) if path in rust else change(old)
        for folder in FOLDERS:
            new = re.sub(rf"(Rattle\.promises\.proofs|crates/promises/proofs|proofs)([./]){folder}\b(?=[./]?(?:[A-Z]|\{{|antt|$))", lambda m: m.group(1) + m.group(2) + folder.capitalize(), new)
            if "/promises/proofs/Lib.antt" in path:
                new = re.sub(rf"\bmod {folder}$", "mod " + folder.capitalize(), new, flags=re.M)
        if new != old:
            open(path, "w").write(new)
    for path in docs:
        old = open(path).read()
        new = re.sub(r"`[^`\n]+`", lambda m: turned(m.group(0), to, known, False), old)
        for folder in FOLDERS:
            new = re.sub(rf"proofs/{folder}\b(?=[/.](?:[A-Z]|antt))", "proofs/" + folder.capitalize(), new)
        if new != old:
            open(path, "w").write(new)
    base = os.path.join(ROOT, "crates/promises/proofs")
    for folder in FOLDERS:
        for end in ("", ".antt"):
            old = os.path.join(base, folder + end)
            if os.path.exists(old):
                subprocess.run(["git", "-C", ROOT, "mv", os.path.relpath(old, ROOT), os.path.relpath(os.path.join(base, folder.capitalize() + end), ROOT)], check=True)
    with open(os.path.join(ROOT, "docs/PORT-NAMES.md"), "w") as out:
        out.write("# Names that changed their spelling\n\nAs `tools/respell.py` turned them: old and new.\n\n| old | new |\n|---|---|\n")
        for a in sorted(to):
            out.write(f"| `{a}` | `{to[a]}` |\n")
    print(f"respell: {len(to)} names, {len(antt) + len(rust)} files read")
    return 0


sys.exit(main())
