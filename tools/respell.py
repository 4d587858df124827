#!/usr/bin/env python3
"""Spells the repository's own names as today's Rattle spells its own: words in snake case.

usage: python3 tools/respell.py        at the top of the repository, once, after the port's own script

A definition, a lemma or a field that the texts of specs/ and proofs/ declare as fooBar or foo-bar becomes foo_bar, in these texts,
in the clauses of src/, and in docs/, README.md and the host's lists of names. Types keep their capitals. A lemma that would
get the name of a definition gets _lem behind it. Names that Rattle makes (behind goal., tie. or a step of a walk) are not the repository's own.
"""
import glob
import re
import sys

NAME = r"[^\s(){}.;,@\"«»\[\]\\:`|]+"
TOKEN = re.compile(rf"--[^\n]*|\"(?:[^\"\\]|\\.)*\"|{NAME}")
DECLARED = re.compile(rf"^( *)((?:(?:pub|abbrev|unfoldable|record|data|ruleset|pattern) +)*)({NAME})(?: +[({{][^:]*[:][^\n]*?[)}}])* *:(?: |$)")
# where the plain spelling is another name's already
EXCEPT = {}
# lemmas that would meet a field or a local name of their file
MEETS = {"page-type", "slice-val"}
# a local name that would meet a definition
LOCAL = {"stands_by"}


def snake(name):
    return re.sub(r"(?<=[a-z0-9ᵢ₀'])[A-Z]", lambda m: "_" + m[0].lower(), name).replace("-", "_")


def turns(name):
    return bool(re.match(r"[a-z]", name)) and (re.search(r"[a-z0-9][A-Z]", name) or re.search(r"\w-\w", name))


def read(path):
    with open(path, encoding="utf-8", newline="") as it:
        return it.read()


def texts():
    at = sorted(glob.glob("crates/*/specs/**/*.antt", recursive=True) + glob.glob("crates/*/proofs/**/*.antt", recursive=True))
    return [it for it in at if "/out/" not in it]


def is_walk(path):
    """A file of one function's proof."""
    return path.count("/") > 3 and "/proofs/" in path and path.rsplit("/", 1)[1] in ("Proof.antt", "Answers.antt", "Invariants.antt")


def declared():
    names = {}
    for path in texts():
        if is_walk(path):
            continue
        for line in read(path).split("\n"):
            if re.match(r" *(use|mod|pub mod|pub use|--|open|module|syntax)\b", line):
                continue
            found = DECLARED.match(line)
            if found and (not found[1] or "pub" in found[2] or re.match(r"  \S", line)):
                names.setdefault(found[3], set()).add(path)
            # an operator's or a record's first line has its parameters before the colon
            more = re.match(rf"^ *(?:pub )?(?:record|data) ({NAME})", line)
            if more:
                names.setdefault(more[1], set()).add(path)
    return names


def imported(text):
    """The names that a text imports from the libraries."""
    out = set()
    for path, names in re.findall(r"(?m)^(?:pub )?(?:ghost )?use ([^\s{;]+?)\.?\{([^}]*)\}", text):
        if not re.match(r"Rattle\.(?!std\b)", path):
            out.update(it.strip().split(" as ")[-1] for it in names.split(","))
    return out


def main():
    own = declared()
    table = {it: EXCEPT.get(it, snake(it)) for it in own if turns(it)}
    # a lemma that would have its definition's name gets _lem
    camel = {table[it] for it in table if "-" not in it}
    for it in sorted(table):
        if "-" in it and it not in EXCEPT and (table[it] in camel or table[it] in own or it in MEETS):
            table[it] += "_lem"
    for it in sorted(own):
        if it in camel and all("/proofs/" in at for at in own[it]):
            table[it] = it + "_lem"
    table.update((it, it + "_lem") for it in LOCAL)
    if "--table" in sys.argv:
        for it in sorted(table):
            print(it, table[it])
        return
    clashes = {}
    for old, new in table.items():
        if new in own and new not in table:
            clashes.setdefault(old, []).append(f"{new} is declared in {sorted(own[new])[:3]} and {old} in {sorted(own[old])[:3]}")
    seen = {}
    for old, new in table.items():
        if new in seen:
            clashes.setdefault(old, []).append(f"{seen[new]} becomes {new} too")
        seen[new] = old

    def turned(path, text, only=None):
        lent = imported(text)
        here = set(re.findall(rf"(?<![.\w-]){NAME}", text))

        def one(m):
            it = m[0]
            if it.startswith("--"):
                return re.sub(r"`([^`]+)`|\b[a-z]\w*[a-z0-9][A-Z]\w*", lambda w: ("`" + table.get(w[1], w[1]) + "`") if w[1] else table.get(w[0], w[0]), it)
            if it.startswith('"') or it not in table or it in lent:
                return it
            if only and not only(it):
                return it
            # a goal, or a step of a walk, is Rattle's
            if text[m.start() - 1 : m.start()] == "." and ("-" in it or table[it].endswith("_lem")):
                return it
            new = table[it]
            if new in here and new not in own and new + "_lem" not in table.values():
                clashes.setdefault(it, []).append(f"{path} has the word {new} already")
            return new

        return TOKEN.sub(one, text)

    out = {}
    for path in texts():
        text = read(path)
        out[path] = turned(path, text)
    for path in sorted(glob.glob("crates/*/src/**/*.rt", recursive=True)):
        text = read(path)
        out[path] = re.sub(rf"(?<![.\w-])[a-z][\w-]*", lambda m: table.get(m[0], m[0]) if re.search(r"[a-z0-9][A-Z]", m[0]) else m[0], text)
    if clashes and "--force" not in sys.argv:
        for old in sorted(clashes):
            print(f"{old}: {'; '.join(sorted(set(clashes[old]))[:4])}")
        print(len(clashes), "names would meet others")
        sys.exit(1)
    known = set(own) | set(table.values())
    names = {}
    for path in sorted(glob.glob("docs/**/*.md", recursive=True) + ["README.md"] + glob.glob("host/tests/**/*.rs", recursive=True)):
        text = read(path)

        def word(m):
            it = m[0]
            if it in table:
                return table[it]
            return snake(it) if turns(it) and snake(it) in known else it

        pattern = r"(?<![\w./-])[a-z][\w-]*(?![\w-])"
        if path.endswith(".md"):
            out[path] = re.sub(r"`[^`\n]+`", lambda m: re.sub(pattern, word, m[0]), text)
    for path, text in out.items():
        if text != read(path):
            with open(path, "w", encoding="utf-8", newline="") as it:
                it.write(text)
            print(path)


main()
