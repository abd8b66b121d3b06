#!/usr/bin/env python3
"""Brings the repository's own definitions and lemmas to the spelling of the proof library: words in snake case.

usage: tools/respell/respell.py     at the top of the repository, once, on sources that the toolchain's own port has turned

A name in camel case that specs/ or proofs/ declare, or an import gives, gets underscores, as readAs: read_as; `getD`, which the library calls
`get_or`, does so in the names of lemmas too; a constructor gets a small first letter, in the files that import it. Types
and modules keep their capitals, and dashes stay. The names are turned in .antt and .rt files, in must-fail edits and in
the pages. Functions of src/, their parameters and fields, exported names and strings are in snake case as they are.

The script stops, and writes nothing, where two names would fall together or a new name is a word of a file that is to get
it. It prints each name that it turned, and each function that has a parameter or a field spelled like a word of its clauses.
"""

import collections
import os
import re
import sys

DECLARED = re.compile(r"^ *(?:(?:pattern|unfoldable|abbrev|pub|axiom) )*([^\s(){}.;,:|λ→=]+)(?: \{[^{}\n]*\})* :(?= |$)", re.M)
OF_A_TYPE = re.compile(r"^(?:pub )?data .*where\n((?: +\S+ :.*\n)+)", re.M)
WORD = r"[^\s(){}.;,@\"«»\[\]:&*<>!?|`]+"
TOKEN = re.compile(rf"(?<![^\s(){{}}.;,@\"«»\[\]:&*<>!?|`]){WORD}")
HUMP = re.compile(r"(?<=[a-z0-9])[A-Z]")
# Words that give way to a new name: a lemma that had the dash before, and a variable.
FIRST = [
    ("crates/text/proofs/", r"(?<![\w.])is_digit(?![\w-])", "is-digit"),
    ("crates/promises/proofs/Codewords.antt", r"(?<=read_back e f )unreadable|(?<=∙ )unreadable(?= ∙)", "unread"),
]
ALIAS = re.compile(r"[,{ ]\S+ as ([a-z]\w*)")
IMPORT = re.compile(r"\buse ([\w.+'-]+)\.\{([^{}]*)\}")


def begun(path, text):
    for begin, word, new in FIRST:
        if path.startswith(begin):
            text = re.sub(word, new, text)
    return text


def files(top, ends):
    for folder, dirs, names in os.walk(top):
        dirs[:] = sorted(d for d in dirs if d not in ("out", ".git", "target"))
        for f in sorted(names):
            if f.endswith(ends):
                yield os.path.join(folder, f)


def read(path):
    with open(path, encoding="utf-8") as f:
        return f.read()


def code(text):
    return re.sub(r"(--|//)[^\n]*", "", text)


def snake(name):
    return HUMP.sub(lambda m: "_" + m[0].lower(), name.replace("getD", "get_or"))


def declared():
    """The names to turn: those in camel case, and the constructors with a capital, each with the module that declares it."""
    names, constructors, settled = set(), {}, set()
    for path in files("crates", ".antt"):
        text = code(read(path))
        for m in DECLARED.finditer(text):
            settled.add(m[1])
            if m[1][:1].islower() and snake(m[1]) != m[1]:
                names.add(m[1])
        names |= {a for a in ALIAS.findall(text) if snake(a) != a}
        for block in OF_A_TYPE.finditer(text):
            for m in re.finditer(r"^ +(\S+) :", block[1], re.M):
                if m[1][:1].isupper():
                    crate, _, rest = path[len("crates/"):].partition("/")
                    constructors[m[1]] = f"Rattle.{crate}." + rest[: -len(".antt")].replace("/", ".")
    for path in files("crates", ".rt"):
        names |= {a for l in code(read(path)).splitlines() if l.lstrip().startswith("ghost use ") for a in ALIAS.findall(l) if snake(a) != a}
    return names, constructors, settled


def imported(text, constructors):
    """The constructors that a file of proofs imports."""
    return {c for m in IMPORT.finditer(text) for c in re.split(r",\s*", m[2].strip()) if constructors.get(c) == m[1]}


def turned(path, text, names, constructors, settled):
    """The text with its names turned; in pages and edits also names that the sources have in the new spelling already."""
    own = {c for c, module in constructors.items() if path.endswith(".antt") and module == "Rattle." + path[len("crates/"):-len(".antt")].replace("/", ".")}
    lent = (imported(text, constructors) | own) if path.endswith(".antt") else set()

    late = path.endswith((".md", ".edit"))

    def word(m):
        if m[0] in names or late and snake(m[0]) != m[0] and snake(m[0]) in settled:
            return snake(m[0])
        parts = m[0].split("-")
        if any(p in names or p == "getD" for p in parts) and path.endswith((".antt", ".md", ".edit")):
            return "-".join(snake(p) if p in names or p == "getD" else p for p in parts)
        return m[0]

    def line(l):
        body, mark, rest = l.partition("--")
        if lent:
            body = TOKEN.sub(lambda m: m[0][:1].lower() + m[0][1:] if m[0] in lent else m[0], body)
        return TOKEN.sub(word, body) + mark + TOKEN.sub(word, rest)

    text = "".join(line(l) for l in text.splitlines(keepends=True))
    return re.sub(r"(?<=\w)′", "'", text)


def bare_words(text):
    """The words of a file that are no projections and no fields that a record is built by: those hide nothing."""
    fields = {m.start(1) for m in re.finditer(r"^ +(\w+) = ", text, re.M)}
    return {m[0] for m in TOKEN.finditer(text) if text[m.start() - 1 : m.start()] != "." and m.start() not in fields}


def conflicts(names, constructors):
    said = []
    by_new = collections.defaultdict(set)
    for n in names | set(constructors):
        by_new[snake(n) if n in names else n[:1].lower() + n[1:]].add(n)
    said += [f"fall together: {', '.join(sorted(olds))}: {new}" for new, olds in by_new.items() if len(olds) > 1]
    for path in files("crates", ".antt"):
        text = code(begun(path, read(path)))
        words = bare_words(text)
        lent = imported(text, constructors)
        for new, olds in by_new.items():
            if new in words and any(o in words and (o in names or o in lent) for o in olds):
                said.append(f"meets: {path}: {', '.join(sorted(olds))}: {new}")
    return said


def hidden(path, text):
    """Parameters that are spelled like a word that the file imports for its clauses."""
    words = {w for m in re.finditer(r"ghost use [^;{]*\{([^}]*)\}", text) for w in re.split(r",\s*", m[1].strip())}
    for m in re.finditer(r"\bfn (\w+)[^(]*\(((?:[^()]|\([^()]*\))*)\)", text):
        for p in re.finditer(r"\b(\w+):", m[2]):
            if p[1] in words:
                yield f"look: {path}: {m[1]} has a parameter {p[1]}"


def main():
    names, constructors, settled = declared()
    said = conflicts(names, constructors)
    if said:
        print("\n".join(said))
        return 1
    for path in [*files("crates", (".antt", ".rt", ".edit")), *files("docs", ".md"), "README.md"]:
        old = read(path)
        new = turned(path, begun(path, old), names, constructors, settled)
        if new != old:
            with open(path, "w", encoding="utf-8") as f:
                f.write(new)
        if path.endswith(".rt"):
            for l in hidden(path, new):
                print(l)
    for n in sorted(names):
        print(f"{n}: {snake(n)}")
    for c in sorted(constructors):
        print(f"{c}: {c[:1].lower() + c[1:]}, where it is imported from {constructors[c]}")
    return 0


if __name__ == "__main__":
    sys.exit(main())
