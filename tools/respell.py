#!/usr/bin/env python3
"""Brings this repository's own antt names to the spelling of today's Rattle: words in snake case, a dash only between two names.

usage: tools/respell.py         at the top of the repository, once, right after the kit's port.py

Definitions and variables in camel case become snake case (`nodeValues`: `node_values`). A lemma's dash stays where it joins the names of two
definitions (`build-length`) and else becomes `_` (`table-valid`: `table_valid`). A lemma that would have its definition's name gets
`_lem`. A module's alias is in upper camel case. Functions of src/, modules, types and what Rattle generates keep their names.
It rewrites .rt, .antt and .edit files and the code spans of pages in place, and prints names that fall together in a file.
"""
import collections
import glob
import re

WORD = r"[^\s(){}.;,@\"«»`|\[\]\\]+"
TOKEN = re.compile(rf"(?P<dot>\.?)(?P<word>{WORD})")
DECLARED = re.compile(
    rf"^\s*(?:(?:abbrev|unfoldable|pub|data|record)\s+)*({WORD})(?:\s*\{{[^}}]*\}}|\s*\([^)]*\))*\s*:(?:\s|$)", re.M
)
CAMEL = re.compile(r"^[a-z][A-Za-z0-9]*[A-Z]")
ALIAS = re.compile(rf"^(use [^\s{{]+ as )({WORD})\s*$", re.M)
LIBRARY = "length take drop set get_or map replicate append and or not has eqb ltb leb min max".split()
# What PORTING's scripts respelled by the library's table, and garbled or spelled unlike the rest.
MENDED = {"getD-other": "get_or-other", "is_IsLeaf": "is_leaf_of", "bit-or": "bit_or_lem"}


def snake(name):
    return re.sub(r"(?<=[a-z0-9])[A-Z]", lambda m: "_" + m[0].lower(), name)


def texts():
    for kind in ("crates/*/specs/*.antt", "crates/*/proofs/**/*.antt", "crates/*/src/*.rt"):
        yield from sorted(glob.glob(kind, recursive=True))


def pages():
    yield from sorted(glob.glob("crates/*/must-fail/*.edit") + glob.glob("tests/definitions/*") + glob.glob("docs/*.md") + ["README.md"])


def read(path):
    with open(path, encoding="utf-8") as f:
        return f.read()


def code(text):
    return re.sub(r"(--|//)[^\n]*", "", text)


def table():
    """Each old name and its new one: the camel case ones wherever they stand, and the lemmas with a dash."""
    specs, lemmas, camel = set(), set(), set()
    for path in texts():
        text = code(read(path))
        camel |= {w for _, w in TOKEN.findall(text) if CAMEL.match(w) and "-" not in w}
        if re.match(r"crates/\w+/specs/", path):
            specs |= {w for w in DECLARED.findall(text) if w[0].islower()}
        elif re.match(r"crates/\w+/proofs/\w+\.antt", path):
            lemmas |= {w for w in DECLARED.findall(text) if not w[0].isupper()}
    new = {w: snake(w) for w in camel}
    names = {snake(w) for w in specs} | set(LIBRARY)
    for w in lemmas:
        if "-" in w or CAMEL.match(w):
            parts = [snake(p) for p in w.split("-")]
            both = len(parts) == 2 and names.issuperset(parts) and "_".join(parts) not in names
            new[w] = ("-" if both else "_").join(parts)
    new.update(MENDED)
    turned_specs = {snake(w) for w in specs & camel} - specs
    for w in lemmas:
        if new.get(w, w) in (names if "-" in w else turned_specs) and w not in camel:
            new[w] = new.get(w, w) + "_lem"
    return {a: b for a, b in new.items() if a != b}


def alias(name):
    return "".join(p[:1].upper() + p[1:] for p in re.split(r"[-_]", name))


def turned(text, new):
    """The text by the table. A comment's own words are no lemmas: there a name with a dash stays."""
    comments = [m.span() for m in re.finditer(r"(--|//)[^\n]*", text)]

    def one(m):
        if "-" in m["word"] and any(a <= m.start() < b for a, b in comments):
            return m[0]
        word = m["word"]
        tail = re.search(r"'*$", word)[0]
        stem = word[: len(word) - len(tail)]
        if m["dot"] and "-" in stem and not re.search(r"[A-Z]\w*$", text[: m.start()]):
            return m[0]
        return m["dot"] + new.get(word, new.get(stem, stem) + tail)

    return TOKEN.sub(one, text)


def main():
    new = table()
    for path in texts():
        text = old = read(path)
        if path.endswith(".antt"):
            for _, name in ALIAS.findall(text):
                text = re.sub(rf"(?<![^\s(){{}};,]){re.escape(name)}(?=\.|\s*$)", alias(name), text, flags=re.M)
        met = collections.defaultdict(set)
        for _, w in TOKEN.findall(code(text)):
            met[new.get(w, w)].add(w)
        for name, olds in sorted(met.items()):
            if len(olds) > 1:
                print(f"together: {path}: {' '.join(sorted(olds))} -> {name}")
        # what a .rt file calls by a lemma's name is a function of its own
        text = turned(text, {a: b for a, b in new.items() if path.endswith(".antt") or not b.endswith("_lem")})
        # an import that was renamed to what it is now called
        text = re.sub(rf"({WORD}) as \1(?=[,}}])", r"\1", text)
        if text != old:
            with open(path, "w", encoding="utf-8") as f:
                f.write(text)
    # pages and edits have the names of before port.py ran
    now = {w for path in texts() for w in DECLARED.findall(code(read(path)))}
    for path in pages():
        try:
            old = read(path)
        except (IsADirectoryError, UnicodeDecodeError):
            continue
        for _, w in TOKEN.findall(old):
            if CAMEL.match(w) and w not in new and snake(w) in now:
                new[w] = snake(w)
        if path.endswith(".md"):
            text = re.sub(r"`[^`\n]+`", lambda m: turned(m[0], new), old)
        else:
            text = turned(old, new)
        if text != old:
            with open(path, "w", encoding="utf-8") as f:
                f.write(text)
    with open("docs/respelled.tsv", "w", encoding="utf-8") as f:
        f.writelines(f"{a}\t{b}\n" for a, b in sorted(new.items()))


main()
