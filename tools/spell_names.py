#!/usr/bin/env python3
"""Spells the repository's own definitions and lemmas as today's Rattle does: words in snake case, facts and types in camel case.

usage: python3 tools/spell_names.py        once, at the top of the repository, right after /opt/rattle/port/port.py

A name is turned where a file of specs/ or proofs/ declares it, and wherever it is used: in .antt files, in the clauses, ghost imports and
comments of .rt files, in must-fail edits and in the pages. Names that a file imports from a library of the kit stay as they are there, and
so do functions of src/, exported names, strings, inputs and outputs.

Where a definition and a lemma fall together in the new spelling, the lemma takes `_lem`; each is printed, with every other name that meets
one that is there already. A function's own proof file (Proof.antt) keeps the labels that the check once made; only names from elsewhere
are turned in it.
"""

import collections
import os
import re
import sys

WORD = r"[^\s(){}.;,@\"«»⌜⌝:`]+"
DECLARED = re.compile(r"(?m)^( *)((?:(?:abbrev|unfoldable|pub) )*)([^\s(){}.;,@\"]+)((?: \{[^{}\n]*\})*) :(?= |$)")
USE = re.compile(r"(?m)^(?:pub )?use ([^\s;{]+?)\.?(\{[^}]*\})?(?: as (\S+))?$")
PLAIN = re.compile(r"[a-z][A-Za-z0-9_'-]*")
KEYWORDS = {"record", "data", "use", "mod", "let", "in", "where"}
# Facts, which are spelled as types: in these files, and where these are used.
FACTS = {
    "noneOffends": ("NoneOffends", ("crates/consistency/",)),
    "clearFrom": ("ClearFrom", ("crates/reader/",)),
    "holds": ("Holds", ("crates/examples/", "crates/journal_examples/")),
}
PAGES = ["README.md", "docs"]


def spelled(name):
    words = re.sub(r"(?<=[a-z0-9'])[A-Z]", lambda m: "_" + m[0].lower(), name)
    return words.replace("-", "_")


def files(top, *endings):
    for folder, dirs, names in os.walk(top):
        dirs[:] = sorted(d for d in dirs if d not in ("out", "target", ".git"))
        for name in sorted(names):
            if name.endswith(endings):
                yield os.path.join(folder, name)


def read(path):
    with open(path, encoding="utf-8") as f:
        return f.read()


def imported(text):
    """The names that a file imports from libraries of the kit."""
    out = set()
    for m in USE.finditer(text):
        if m[1].split(".")[0] == "Rattle" and m[1].split(".")[1] not in ("std", "core"):
            continue
        out |= {w.strip() for w in re.split(r"[,{}]", m[2] or "") if w.strip()}
        if m[3]:
            out.add(m[3])
    return out


def is_own_proof(path):
    return os.path.basename(path) == "Proof.antt"


def main():
    if not os.path.isdir("crates"):
        sys.exit("run it at the top of the repository")
    texts = {p: read(p) for p in files("crates", ".antt")}
    declared = collections.defaultdict(set)
    for p, t in texts.items():
        if not is_own_proof(p):
            for m in DECLARED.finditer(t):
                if m[3] not in KEYWORDS:
                    declared[m[3]].add(p)
    turned = {}
    for name in declared:
        if PLAIN.fullmatch(name):
            turned[name] = spelled(name)
    meet = collections.defaultdict(set)
    for name, new in turned.items():
        meet[new].add(name)
    used = {p: set(re.findall(r"(?<![^\s(){}⟨⟩;,@«»])" + WORD, t)) for p, t in texts.items()}
    for new, names in sorted(meet.items()):
        if len(names) < 2 or not any(len(names & words) > 1 for words in used.values()):
            continue
        words = sorted(n for n in names if re.search("[A-Z]", n))
        for lemma in sorted(names - set(words)):
            if words and all("/proofs/" in p for p in declared[lemma]):
                turned[lemma] = spelled(lemma) + "_lem"
                print(f"{', '.join(words)} and {lemma} fall together: {turned[lemma]}")
            else:
                print(f"look: {', '.join(sorted(names))} fall together: {new}")

    def turn(text, path, known_only):
        kept = imported(text) if path.endswith(".antt") else set()

        def one(m):
            name = m[0]
            before = text[m.start() - 1] if m.start() else " "
            if not PLAIN.fullmatch(name):
                return name
            if name in FACTS and path.startswith(FACTS[name][1]):
                return FACTS[name][0]
            if before == ".":
                new = turned.get(name, name)
                # behind a dot a function's own proof has labels too
                return spelled(name) if new.endswith("_lem") and is_own_proof(path) else new
            if name in kept:
                return name
            if name in turned:
                return turned[name]
            if known_only:
                return name
            return spelled(name)

        return re.sub(WORD, one, text)

    for p, t in texts.items():
        save(p, t, turn_lines(t, p, turn))
    camel = {n: s for n, s in turned.items() if re.search("[A-Z]", n)}
    for p in files("crates", ".rt"):
        t = read(p)
        new = re.sub(r"(?<![\w'.-])[a-z]\w*[A-Z][\w']*", lambda m: camel.get(m[0], m[0]), t)
        new = re.sub(r"(?<=\.)[a-z]\w*[A-Z][\w']*", lambda m: camel.get(m[0], m[0]), new)
        for old, (fact, where) in FACTS.items():
            if p.startswith(where):
                new = re.sub(rf"(?<![\w'-]){old}(?![\w'-])", fact, new)
        save(p, t, new)
    for p in files("crates", ".edit"):
        t = read(p)
        lines = []
        antt = False
        for line in t.split("\n"):
            if line.startswith("file:"):
                antt = line.rstrip().endswith(".antt")
            if line.startswith(("old:", "new:")):
                names = turned if antt else camel
                line = re.sub(r"(?<![\w'-])[a-z][\w'-]*", lambda m: names.get(m[0], m[0]) if m[0] not in ("old", "new") else m[0], line)
            lines.append(line)
        save(p, t, "\n".join(lines))
    for page in PAGES:
        for p in [page] if os.path.isfile(page) else files(page, ".md"):
            # what moved in earlier releases is told in the names of its time
            if os.path.basename(p) == "CHANGES.md":
                continue
            t = read(p)
            new = re.sub(r"(?<![\w'/-])[a-z]\w*[A-Z][\w']*", lambda m: camel.get(m[0], m[0]), t)
            new = re.sub(r"`[a-z][a-z0-9']*(?:-[a-z0-9']+)+`", lambda m: "`" + turned.get(m[0][1:-1], m[0][1:-1]) + "`", new)
            save(p, t, new)


def turn_lines(text, path, turn):
    """Comments have names too, but only those that are declared are turned there: other words may have a hyphen."""
    known = is_own_proof(path)
    whole = turn(text, path, known)
    said = turn(text, path, True)
    out = []
    for old, code, comment in zip(text.split("\n"), whole.split("\n"), said.split("\n")):
        if not old.lstrip().startswith("--"):
            out.append(code)
            continue
        # a word with a hyphen in a comment is English, a name with capitals inside is not
        kept = []
        for a, b in zip(re.split(r"(\s+)", old), re.split(r"(\s+)", comment)):
            kept.append(b if re.search(r"[a-z][A-Z]", a) else a)
        out.append("".join(kept))
    return "\n".join(out)


def save(path, old, new):
    if new != old:
        with open(path, "w", encoding="utf-8") as f:
            f.write(new)


if __name__ == "__main__":
    main()
