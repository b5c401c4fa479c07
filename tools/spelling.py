#!/usr/bin/env python3
"""Gives the repository's own definitions, fields and lemmas the spelling of Rattle's style: snake case with plain underscores.

usage: tools/spelling.py        at the top of the repository, once, right after the kit's own script for older repositories

A definition `walkStart` becomes `walk_start`, a lemma `rising-next` becomes `rising_next`. A lemma that would meet a
definition, or another name that was in snake case before, gets `_lem` behind it. Names of src/, types and modules stay.
It goes by whole words: in specs/ and proofs/, in the clauses of src/, in must-fail edits, and in the code spans of pages
and of comments elsewhere. What a check makes of a function (the labels of its goals) is left alone.
"""

import glob
import os
import re

NAME = r"[^\s(){}.;,@\"«»:`]+"
WORD = re.compile(r"(?<![^\s(){}.;,@\"«»:`])" + NAME)
DECLARED = re.compile(rf"^\s*(?:[a-z]+\s+)*({NAME})(?:\s+[{{(].*?[}})])*\s+:\s(.*)")
FIELD = re.compile(rf"[{{;]\s*({NAME})\s+:\s")
USE = re.compile(r"\buse ([^\s;{]+)\.?\{([^}]*)\}")
GOAL = re.compile(r"tie\.|statement\b|\{M : Type")

# Names that a `let` alone gives.
ALSO = ["recordingOf"]
# Fields that are spelled as the library spells the same laws.
AS_LIBRARY = {"add-zero", "mul-one", "mul-add", "add-mul", "map-append", "zero-add", "one-mul", "mul-zero", "zero-mul"}


def in_snake_case(name):
    name = name.replace("getD", "get_or")
    name = re.sub(r"([a-z0-9₀-₉])([A-Z])", lambda m: m[1] + "_" + m[2].lower(), name)
    return name.replace("-", "_")


def is_old(name):
    return bool(re.match(r"[a-z]", name) and (re.search(r"[a-z0-9₀-₉][A-Z]", name) or re.search(r"\S-\S", name)))


def antt():
    return sorted(glob.glob("crates/*/specs/**/*.antt", recursive=True) + glob.glob("crates/*/proofs/**/*.antt", recursive=True))


def of_function(path):
    return "/proofs/" in path and len(path.split("/")) > 4


def declared():
    """Each name that the texts declare, and the files that declare it; the goals' names of each file."""
    found, goals = {}, {}
    for path in antt():
        for line in open(path, encoding="utf-8").read().split("\n"):
            code = re.sub(r"--.*", "", line)
            m = DECLARED.match(code)
            if m and of_function(path) and GOAL.match(m[2]):
                goals.setdefault(path, set()).add(m[1])
                continue
            for name in ([m[1]] if m else []) + FIELD.findall(code):
                found.setdefault(name, set()).add(path)
    return found, goals


def is_lemma(name, files):
    return all("/proofs/" in f for f in files)


def table(found):
    taken = {n for n in found if not is_old(n)}
    new, used = {}, {}
    old = [n for n in list(found) + ALSO if is_old(n) and n not in AS_LIBRARY]
    # Definitions first: what they say is in every clause.
    for n in sorted(old, key=lambda n: (is_lemma(n, found.get(n, [""])), "-" in n, n)):
        to = in_snake_case(n)
        if to in used:
            to += "_lem"
        elif to in taken:
            if is_lemma(to, found[to]) and not is_lemma(n, found.get(n, [""])):
                new[to] = to + "_lem"
            else:
                to += "_lem"
        if to in used:
            raise SystemExit(f"{n} and {used[to]} would both be {to}")
        new[n], used[to] = to, n
    return new


def imported(text):
    return {n for m in USE.finditer(text) if not m[1].startswith("Rattle.") for n in re.split(r"[,\s]+", m[2])}


def turned(path, text, new, goals, found):
    foreign = imported(text) | goals.get(path, set())
    within = of_function(path)

    def word(m):
        n = m[0]
        after_dot = m.start() and m.string[m.start() - 1] == "."
        if n not in new or n in foreign:
            return n
        # In a function's own files a dot may stand before what a check makes; a field of specs/ is turned all the same.
        if within and after_dot and "-" in n and is_lemma(n, found.get(n, [])):
            return n
        # A lemma that makes room for a definition had a name that src/ may have too.
        if not is_old(n) and (after_dot or "/proofs/" not in path):
            return n
        return new[n]

    return by_line(path, text, lambda s: WORD.sub(word, s), lambda s: old_text(s, new, found))


def by_line(path, text, turn, turn_said=None):
    """What stands before a comment is turned; in a comment a word with a dash may be plain English, so only code spans
    and words with a capital within are turned there."""
    mark = re.compile(r"(?<!\S)--(?!\S)" if path.endswith(".antt") else r"//" if path.endswith(".rt") else r"^#")
    lines = []
    for line in text.split("\n"):
        m = mark.search(line)
        cut = m.start() if m else len(line)
        said = re.sub(r"`[^`]+`|[a-z]\w*[A-Z]\w*", lambda w: (turn_said or turn)(w[0]), line[cut:])
        lines.append(turn(line[:cut]) + said)
    return "\n".join(lines)


def old_text(text, new, found):
    """Pages and must-fail edits, which the kit's script leaves alone: the names that it turned are turned here too."""

    def word(m):
        n = m[0]
        if not is_old(n):
            return n
        to = in_snake_case(n)
        return new.get(n) or (new.get(to, to) if to in found else n)

    return WORD.sub(word, text)


def spans(text, new, found):
    return re.sub(r"`[^`\n]+`", lambda m: old_text(m[0], new, found), text)


def edit(path, text, new, found):
    """A projection is written tight."""
    text = by_line(path, text, lambda s: old_text(s, new, found))
    text = re.sub(r"\(([\w.₀-₉']+) \.(\w+)\)", r"\1.\2", text)
    return re.sub(r"([\w₀-₉')]) \.(?=[a-z0-9])", r"\1.", text)


def main():
    found, goals = declared()
    new = table(found)
    tracked = os.popen("git ls-files").read().split("\n")[:-1]
    for path in tracked:
        if path.startswith("docs/requirements/") or path == "tools/spelling.py" or not os.path.isfile(path):
            continue
        try:
            text = open(path, encoding="utf-8").read()
        except UnicodeDecodeError:
            continue
        if path.endswith(".edit"):
            to = edit(path, text, new, found)
        elif path.endswith((".antt", ".rt")):
            to = turned(path, text, new, goals, found)
        elif path.endswith((".md", ".rs", ".c", ".h")) or path.startswith(("tools/", "compare/", "bench/", "examples/")):
            to = spans(text, new, found)
        else:
            continue
        if to != text:
            open(path, "w", encoding="utf-8").write(to)
    for n in sorted(new):
        if new[n].endswith("_lem"):
            print(f"look: {n} is {new[n]}")
    print(f"{len(new)} names")


main()
