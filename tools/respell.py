#!/usr/bin/env python3
"""Gives the repository's own definitions, lemmas, fields and constructors the spelling of today's library: words in snake case.

usage: respell.py [--list] ROOT

Run it once, right after /opt/rattle/port/port.py. It takes each name that an .antt file of specs/ or proofs/ declares and that has a dash or a
capital inside, as `lookedAt` or `put-filled`, and writes it in snake case wherever it stands as a whole name: in .antt files, in the clauses of
.rt files, and in must-fail edits. Types, facts and modules keep their capital, and what is named after one keeps its dash, as `O1-file`.
Names that Rattle makes, names of the library, Rust's names, strings and plain words of comments stay. Where two names would fall together the
table APART tells them apart. --list prints what would be renamed and what would fall together, and writes nothing.
"""
import collections
import os
import re
import sys

WORD = r"[^\s(){}.;,@\"«»\[\]\\]+"
DECLARED = re.compile(r"^( *)((?:abbrev |unfoldable |pub )*)(" + WORD + r")(?: \{[^}]*\})* :(?: |$)(.*)")
# Constructors of one type stand on one line.
SEVERAL = re.compile(r"^ +((?!let |in |pub |abbrev |module |record |data |use |λ )(?:" + WORD + r" +)+): (.*)")
USED = re.compile(r"^\s*(?:pub |ghost )*use ([^{;]*?)(?:\.\{([^}]*)\})?;?\s*$")
CAMEL = re.compile(r"(?<=[a-z0-9])(?=[A-Z])")

# Names that would fall together with another name of the same file, and what they are called instead.
APART = {
    "bit-and": "bit_bit_and",
    "bit-or": "bit_bit_or",
    "isJoin": "is_a_join",
    # what port.py made of `is-leaf`
    "is_IsLeaf": "is_leaf",
    "path-text": "path_text_lem",
    "quad_at": "quad_at_lem",
    "test-by": "test_by_lem",
}

# The same for a name that is a function of src/ elsewhere: in these files alone.
IN_FILES = {
    "crates/answers/proofs/Accepted.antt": {"node_at": "node_at_lem"},
    "crates/meaning/proofs/Nodes.antt": {"node_at": "node_at_lem"},
    "crates/readoff/proofs/Answer.antt": {"node_at": "node_at_lem"},
}

# In must-fail edits, what port.py writes elsewhere.
TURNED = {
    r"List·Memᴰ": "Memᴰ",
    r"getD\b": "get_or",
    r"′": "'",
    r"″": "''",
    r"centreAt cs i \.(\w+)": r"(centreAt cs i).\1",
    r"rooted w \.rootAt": "(rooted w).rootAt",
    r"\(([\w']+) \.([\w-]+)\)": r"\1.\2",
    r"(?<=[\w)]) \.(?=[a-z])": ".",
    r"now centres\.entry": "centres.old",
    r"now \(centres\.entry\)": "centres.old",
    r"now \(centres\.exit\)": "centres.new",
    r"\(now centres\.(entry)\)": "centres.old",
    r"\(now centres\.(exit)\)": "centres.new",
    r"\(centres\.(old|new)\)": r"centres.\1",
    r" ⌝ }$": " }",
}


def snake(name):
    parts = name.replace("-", "_").split("_")
    return "_".join(p if len(p) == 1 else CAMEL.sub("_", p).lower() if re.fullmatch(r"[A-Za-z0-9']+", p) else p for p in parts)


def files(root, *ends):
    for folder, dirs, names in os.walk(os.path.join(root, "crates")):
        dirs[:] = sorted(d for d in dirs if d != "out")
        for name in sorted(names):
            if name.endswith(ends):
                yield os.path.join(folder, name)


def read(path):
    with open(path, encoding="utf-8") as f:
        return f.read()


def declared(line):
    """Returns the names that the line declares, each with the type that follows."""
    m = DECLARED.match(line)
    if m:
        return [(m[3], m[4])]
    m = SEVERAL.match(line)
    return [(name, m[2]) for name in m[1].split()] if m else []


def renamed(root):
    """Returns what each own name becomes."""
    out = {}
    for path in files(root, ".antt"):
        for line in read(path).split("\n"):
            for name, of in declared(line):
                if re.match(r"tie\.(Need-|invariant-|decreases-)", of) or of == "goal." + name or name[0].isupper() or name in ("λ", ":"):
                    continue
                new = APART.get(name) or snake(name)
                if new != name:
                    out[name] = new
    taken = {new for old, new in out.items() if "-" not in old}
    # A lemma that would have its function's name gets `_lem`.
    return {old: new + "_lem" if "-" in old and new in taken and old not in APART else new for old, new in out.items()}


TOKEN = re.compile(r"(--[^\n]*|//[^\n]*)|(\"(?:[^\"\\]|\\.)*\")|(" + WORD + ")")


def library_names(text):
    """Returns the names that the file takes from the library."""
    out = set()
    for line in text.split("\n"):
        m = USED.match(line)
        if m and m[2] and not re.match(r"Rattle\.(?!std\b|core\b)", m[1]):
            out |= {w.split(" as ")[0].strip() for w in m[2].split(",")}
    return out


def turned(text, names):
    skip = library_names(text)
    said = lambda w: names.get(w, w) if w not in skip else w

    def one(m):
        if m[1]:
            return re.sub(r"`([^`]*)`", lambda q: "`" + re.sub(WORD, lambda w: said(w[0]), q[1]) + "`", re.sub(r"\b[a-z]+[a-z0-9]*[A-Z]\w*\b", lambda w: said(w[0]), m[1]))
        return said(m[0]) if m[3] else m[0]

    return TOKEN.sub(one, text)


def main():
    args = [a for a in sys.argv[1:] if a != "--list"]
    root = args[0]
    names = renamed(root)
    if "--list" in sys.argv:
        by_new = collections.defaultdict(set)
        for old, new in names.items():
            by_new[new].add(old)
        for new, olds in sorted(by_new.items()):
            if len(olds) > 1:
                print("two become one:", new, sorted(olds))
        for path in files(root, ".antt", ".rt"):
            text = read(path)
            skip = library_names(text)
            tokens = {m[3] for m in TOKEN.finditer(text) if m[3]}
            for old in sorted(tokens & set(names) - skip):
                if names[old] in tokens:
                    print("stands there:", os.path.relpath(path, root), old, names[old])
        print(len(names), "names")
        return
    for path in files(root, ".antt", ".rt"):
        old = read(path)
        new = turned(old, {**names, **IN_FILES.get(os.path.relpath(path, root), {})})
        if new != old:
            with open(path, "w", encoding="utf-8") as f:
                f.write(new)
    for path in files(root, ".edit"):
        old = read(path)
        stand = set()
        for to in re.findall(r"(?m)^file: (.*)", old):
            stand |= set(re.findall(WORD, read(os.path.join(os.path.dirname(path), "..", to))))
        new = "\n".join(edit_line(line, names, stand) for line in old.split("\n"))
        if new != old:
            with open(path, "w", encoding="utf-8") as f:
                f.write(new)


def edit_line(line, names, stand):
    m = re.match(r"(old: |new: )(.*)", line)
    if not m:
        return line
    text = m[2]
    for old, new in TURNED.items():
        text = re.sub(old, new, text)

    def one(m):
        w = m[3]
        if not w:
            return m[0]
        # port.py respelled names too, where the library has one that is spelled alike
        return names.get(w) or (snake(w) if w not in stand and snake(w) in stand else w)

    return m[1] + TOKEN.sub(one, text)


main()
