#!/usr/bin/env python3
"""Lists the places that docs/DESIGN-PASS.md counts, point by point: places.py [COMMIT] [POINT..]; with no commit, of the files here.

It finds text, not meaning: which of the lines are places, and why one stays, the page says.
"""
import collections
import re
import subprocess
import sys


def git(*words):
    return subprocess.run(["git", *words], check=True, capture_output=True, text=True).stdout


def files(commit, ending):
    """The files under crates/ with this ending, with their text."""
    if commit:
        names = git("ls-tree", "-r", "--name-only", commit, "crates").split("\n")
        return [(n, git("show", f"{commit}:{n}")) for n in names if n.endswith(ending)]
    names = git("ls-files", "--cached", "--others", "--exclude-standard", "crates").split("\n")
    found = []
    for name in sorted(set(names)):
        if name.endswith(ending):
            try:
                with open(name, encoding="utf-8") as f:
                    found.append((name, f.read()))
            except FileNotFoundError:
                pass
    return found


def short(name):
    return name.replace("crates/", "").replace("/src/", "/")


def lines(sources, pattern):
    return [f"{short(n)}:{i}: {l.strip()}" for n, s in sources for i, l in enumerate(s.split("\n"), 1) if re.search(pattern, l)]


def functions(sources):
    """Each function: its file, name, parameters, clauses and body."""
    found = []
    for name, text in sources:
        for part in re.split(r"^(?= *(?:pub )?(?:extern \"C\" )?fn )", text, flags=re.M)[1:]:
            head, _, rest = part.partition("\n{\n" if re.search(r"\n\{\n", part.split("\n}")[0]) else "{\n")
            body = re.split(r"^(?:    )?\}$", rest, maxsplit=1, flags=re.M)[0]
            title = re.match(r".*?fn (\w+)", head, re.S).group(1)
            inner = re.search(r"fn \w+(?:<[^(]*>)?\((.*?)\)\s*(?:->[^\n]*)?(?:\n|$)", head, re.S)
            parameters = [p.strip() for p in re.split(r",(?![^<\[(]*[>\])])", inner.group(1))] if inner else []
            clauses = re.findall(r"(?:requires|ensures)(?: \w+)? \{(.*)\}", head)
            found.append((short(name), title, [p for p in parameters if p], clauses, body))
    return found


def twins(sources):
    """Groups of functions whose bodies are alike but for names, numbers and texts."""
    groups = collections.defaultdict(list)
    for name, title, _, _, body in functions(sources):
        shape = re.sub(r"//.*", "", body)
        shape = re.sub(r"b?\"(?:[^\"\\]|\\.)*\"|b?'(?:[^'\\]|\\.)'", "T", shape, flags=re.S)
        shape = re.sub(r"\b(?!(?:if|else|for|in|let|mut|return|match|while|true|false|as)\b)[A-Za-z_][\w:]*", "N", shape)
        shape = re.sub(r"\b\d\w*", "1", shape)
        groups[re.sub(r"\s+", "", shape)].append(f"{name}:{title}")
    return ["; ".join(g) for g in sorted(groups.values(), key=lambda g: (-len(g), g)) if len(g) > 1]


def repeated(sources):
    """Facts that stand in the clauses of three functions or more, and parameters that three functions or more take together."""
    facts, pairs = collections.defaultdict(set), collections.defaultdict(set)
    for name, title, parameters, clauses, _ in functions(sources):
        for clause in clauses:
            for fact in re.split(r" × ", clause):
                facts[re.sub(r"^\((.*)\)$", r"\1", fact.strip())].add(f"{name}:{title}")
        crate = name.split("/")[0]
        for i, a in enumerate(parameters):
            for b in parameters[i + 1:]:
                pairs[f"{crate}: {a}, {b}"].add(f"{name}:{title}")
    rows = [f"fact, {len(v)} functions: {k}" for k, v in sorted(facts.items(), key=lambda x: -len(x[1])) if len(v) > 2]
    return rows + [f"together, {len(v)} functions: {k}" for k, v in sorted(pairs.items(), key=lambda x: -len(x[1])) if len(v) > 2]


def main():
    words = sys.argv[1:]
    commit = words.pop(0) if words and not words[0].isdigit() else None
    wanted = set(words)
    src, proofs = files(commit, ".rt"), files(commit, ".antt")
    kinds = {
        "1 own enums": lines(src, r"^ *(pub )?enum "),
        "1 flags and answers in fields": lines(src, r"^ +(pub )?(refused|whole|over|error|done|agreed|answer|heading|opened|found|begun|hex|same): "),
        "1 numbers for kinds and refusals": lines(src, r"const [A-Z_0-9]+: u8 = \d+;|const E[A-Z]+: usize = \d+;")
        + [f"{n}:{t} answers a number" for n, t, _, _, b in functions(src) if re.search(r"\{ 0 \} else \{ refusal::|return refusal::|return 16;|=> 16,", b)],
        "2 twins, by shape": twins(src),
        "3 loops": lines(src, r"^\s*(while|for) "),
        "4 widening by hand": lines(src, r"bits::wide|(?<![\w.])wide(16|32)?\("),
        "4 casts": lines(src, r"\bas (u8|u16|u32|u64|usize|i8|i16)\b"),
        "4 small functions for what the library has": lines(src, r"fn (copy|same|or|and|least|flag|bit|wide|wide16|wide32|within|narrow|one_more|together|next|put|put_words|put_bytes|put_number|put_decimal|is_help|room|small|is_pair|same_pair|low_byte|first_of)\b"),
        "5 repeated facts and parameters": repeated(src),
        "6 lists with a length or a place beside": [f"{n}:{t}" for n, t, p, _, _ in functions(src)
            if any(re.search(r"&(mut )?\[", x) for x in p) and any(re.match(r"(n|len|count|used|bytes|total|length|at|from|settings|left): usize", x) for x in p)],
        "7 switches": lines(src, r"\bmatch (piece|line|rule|job|kind|step|word)\b"),
        "8 answers by the checker's own names": lines(proofs, r"\b(true|false)-raw\b"),
        "8 files of answers": [short(n) for n, _ in proofs if n.endswith("Answers.antt")],
    }
    for kind, rows in kinds.items():
        if not wanted or kind.split()[0] in wanted:
            print(f"## {kind}: {len(rows)}")
            for row in rows:
                print("   " + row)


main()
