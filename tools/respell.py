#!/usr/bin/env python3
"""Spells the repository's own definitions and lemmas as today's Rattle does: words in snake case, as `set_of` for `setOf` and `few_groups` for `few-groups`.

usage: python3 tools/respell.py      at the top of the repository, once, after port.py

Turned: each name that a file of specs/ or proofs/ declares, wherever an .antt file, a clause or a `ghost use` line names it, and in backticks in a comment or a page.
Not turned: functions of src/, labels, strings, and the names that a library declares, in a file that imports them.
Where two names would be one, the definition keeps it and the lemma gets `_lem`.
"""
import collections
import os
import re

NAME = r'[^\s(){}.;,@"«»`]+'
DECLARED = re.compile(rf"^( *)((?:(?:abbrev|unfoldable|pub|data|record|ruleset) )*)({NAME})((?: [({{].*?[)}}])*) :(?=\s|$)(.*)")
USE = re.compile(r"^(?:ghost )?use (\S+?)\.?\{([^}]*)\}", re.M)
OWN_FILES = ("Proof.antt", "Answers.antt", "Invariants.antt")
# Names that would fall together with another, and what they are called.
APART = {
    "bits-two": "bits_below_two",
    "bit-two": "bit_below_two",
}
# Lemmas in snake case already, whose name a definition gets, by the files that cite both.
ALSO = {
    "crates/answers/proofs/Kept.antt": ["too_long"],
    "crates/follow/proofs/Begins.antt": ["by_last"],
    "crates/follow/proofs/Nexts.antt": ["by_last"],
    "crates/queries/proofs/Words.antt": ["is_word"],
    "crates/queries/proofs/is_word/Proof.antt": ["is_word"],
    "crates/theory/proofs/Unmoved.antt": ["goes_on"],
}


def snake(name):
    words = re.sub(r"(?<=[a-z0-9])[A-Z]", lambda m: "_" + m[0].lower(), name)
    return words.replace("-", "_")


def read(path):
    with open(path, encoding="utf-8") as f:
        return f.read()


def files(*endings):
    for folder, dirs, names in os.walk("crates"):
        dirs[:] = sorted(d for d in dirs if d not in ("out", ".git"))
        for name in sorted(names):
            if name.endswith(endings):
                yield os.path.join(folder, name)


def declared():
    """Each declared name with the files that declare it, and the names that stand indented: fields, constructors and what a section has."""
    found, inner = collections.defaultdict(set), set()
    for path in files(".antt"):
        if path.endswith(OWN_FILES):
            continue
        for line in read(path).split("\n"):
            m = DECLARED.match(line)
            if m:
                found[m[3]].add(path)
                if m[1]:
                    inner.add(m[3])
    return found, inner


def spellings(found):
    old = [n for n in found if n[0].islower() and (re.search(r"[a-z0-9][A-Z]", n) or "-" in n) or "-" in n]
    groups = collections.defaultdict(list)
    for n in sorted(found):
        groups[snake(n)].append(n)
    table = {}
    for n in old:
        new = APART.get(n, snake(n))
        others = [o for o in groups[snake(n)] if o != n]
        if n not in APART and "-" in n and [o for o in others if "-" not in o or re.search(r"[a-z0-9][A-Z]", o) and not re.search(r"[a-z0-9][A-Z]", n)]:
            new += "_lem"
        table[n] = new
    return table


def imported(text):
    """The words that a file takes from a library."""
    words = set()
    for m in USE.finditer(text):
        steps = m[1].split(".")
        library = steps[0] != "Rattle" or len(steps) > 1 and not os.path.isdir(os.path.join("crates", steps[1]))
        if library:
            words |= {w.split(" as ")[0].strip() for w in m[2].split(",")}
    return words


def turn(text, table, inner, own, path):
    kept = imported(text)
    local = table | {name: name + "_lem" for name in ALSO.get(path, [])}
    if own:
        for line in text.split("\n"):
            m = DECLARED.match(line)
            if m and not re.match(r"\s*(?:tie|goal|given)\.|.*\bstatement\b", m[5]) and not m[3].endswith(("-spec", "_spec")) and "-" in m[3] and not m[3].startswith(("invariant-", "decreases-", "ghost-")):
                local[m[3]] = snake(m[3])
            elif m:
                local.pop(m[3], None)

    def word(m):
        name = m[0]
        if name not in local or name in kept:
            return name
        behind = text[m.start() - 1 : m.start()] == "."
        if behind and (name in ALSO.get(path, []) or own and name not in inner):
            return name
        return local[name]

    code = re.compile(rf'"(?:[^"\\\n]|\\.)*"|(?<![^\s(){{}}.;,])(?:--|//)[^\n]*|{NAME}')

    def piece(m):
        if m[0].startswith('"'):
            return m[0]
        if m[0].startswith(("--", "//")):
            return re.sub(r"`([^`\n]+)`", lambda s: "`" + re.sub(NAME, lambda w: table.get(w[0], w[0]), s[1]) + "`", m[0])
        return word(m)

    return code.sub(piece, text)


def main():
    found, inner = declared()
    table = spellings(found)
    for path in files(".antt", ".rt"):
        text = read(path)
        new = turn(text, table, inner, path.endswith(OWN_FILES), path)
        if new != text:
            before = set(re.findall(NAME, text))
            for old, name in table.items():
                if old in before and name in before and old not in imported(text) and name not in ALSO.get(path, []):
                    print(f"look: {path}: {old} and {name} meet")
            with open(path, "w", encoding="utf-8") as f:
                f.write(new)
    pages = [os.path.join(d, f) for d in (".", "docs", "docs/changes") if os.path.isdir(d) for f in os.listdir(d) if f.endswith(".md")]
    for path in sorted(pages):
        text = read(path)
        new = re.sub(r"`([^`\n]+)`", lambda s: "`" + re.sub(r"[\w'′-]+", lambda w: table.get(w[0], w[0]), s[1]) + "`", text)
        if new != text:
            with open(path, "w", encoding="utf-8") as f:
                f.write(new)
    print(f"respell: {len(table)} names")


if __name__ == "__main__":
    main()
