#!/usr/bin/env python3
"""Spells this repository's own definitions and lemmas as today's Rattle spells names: words in snake case.

usage: python3 tools/respell.py [--list]      at the top, once, after /opt/rattle/port/port.py

leZ-true, capsCheck, T-by-arc  ->  le_z_true, caps_check, T_by_arc

It rewrites the .antt files of specs/ and proofs/, the clauses and `ghost use` lines of src/, and the names in
backquotes in README.md and docs/. Names of Rust items, labels that the prover makes, strings and inputs stay. With
--list it only prints the names that fall together.
"""

import collections
import glob
import os
import re
import sys

NAME = r"[^\s(){}.;,@\"«»\[\]\\|`]+"
TOKEN = re.compile(r"--[^\n]*|\"(?:[^\"\\]|\\.)*\"|" + NAME)
USE = re.compile(r"^(?:pub )?use ([^\s;{]+?)(?:\.?\{([^}]*)\})?(?: as (\S+))?$", re.M)
WORDS = "pub|abbrev|unfoldable|record|data|instance|private|infixl|infixr"
DECLARED = re.compile(rf"(?m)^ *((?:(?:{WORDS}) +)*)({NAME})(?: [^:\n]*?)? : ")
# The lines of a proof file that name a goal of the prover.
GOAL = re.compile(rf"(?m)^ *(?:abbrev +)?(?:pub +)?({NAME}) : tie\.(?:Need|invariant|decreases)\S*")


# Names that would meet a definition of the same file. A lemma that would have its function's name gets `_lem`.
LEMMAS = (
    "apply-check arc-row asked-shares by-arc by-arc-list cap-sums-list commit-check contents-read count-check dead-ends"
    " event-check excess-of first-after first-least front-tree group-cost is-zero level-list margin-list mark-check"
    " member-count member-row members-list needs-list parent-lists plain-check search-verdict search-words share-at"
    " square-sum stop-or tree-in"
)
OTHERS = {
    "arc-offset": "offset_of_arcs",
    "arc-rows": "rows_of_arcs",
    "byNumber": "group_by_number",
    "member-offset": "offset_of_members",
    "member-rows": "rows_of_members",
    "mostBytes": "most_bytes_of",
    "no-state": "no_state_commit",
    "oneMore": "with_one_more",
    **{it: it.replace("-", "_") + "_lem" for it in LEMMAS.split()},
}


def read(path):
    with open(path, encoding="utf-8") as it:
        return it.read()


def is_odd(name):
    """Whether a name is in another case than today's words."""
    if re.search(r"\w-\w", name):
        return True
    return bool(re.match(r"[a-z]", name)) and bool(re.search(r"[A-Zℤ]", name[1:])) and not re.search(r"_[A-Zℤ]", name)


def respelled(name):
    if name in OTHERS:
        return OTHERS[name]
    if re.match(r"[a-z]", name):
        name = re.sub(r"(?<=[a-z0-9])[A-Z]", lambda it: "_" + it[0].lower(), name)
        name = re.sub(r"(?<=[a-z])ℤ", "_ℤ", name)
    return name.replace("-", "_")


def uses(text, crates):
    """Returns the names that a file imports from libraries, and those from this repository."""
    others, own = set(), set()
    for path, items, alias in USE.findall(text):
        steps = path.split(".")
        ours = steps[0] == "Rattle" and len(steps) > 1 and steps[1] in crates
        for item in filter(None, (it.strip() for it in items.split(","))):
            name, _, new = item.partition(" as ")
            (own if ours else others).add(name)
            if new:
                own.add(new)
    return others, own


def main():
    crates = {it.split(":")[0].split()[0] for it in read("crates.txt").splitlines() if ":" in it.split("#")[0]}
    texts = {it: read(it) for it in sorted(glob.glob("crates/*/specs/**/*.antt", recursive=True) + glob.glob("crates/*/proofs/**/*.antt", recursive=True))}
    plain = {it: re.sub(r"--[^\n]*", "", text) for it, text in texts.items()}
    is_walk = lambda path: path.endswith("/Proof.antt")
    declared, others = set(), set()
    for path, text in plain.items():
        others |= uses(text, crates)[0]
        if not is_walk(path):
            declared |= {it[1] for it in DECLARED.findall(text)} | uses(text, crates)[1]
            body = USE.sub("", text)
            for found in re.finditer(NAME, body):
                if body[found.start() - 1 : found.start()] != "." and is_odd(found[0]):
                    declared.add(found[0])
    table = {it: respelled(it) for it in declared - others if is_odd(it)}
    table = {old: new for old, new in table.items() if old != new}

    if "--list" in sys.argv:
        back = collections.defaultdict(set)
        for old, new in table.items():
            back[new].add(old)
        for new, olds in sorted(back.items()):
            if len(olds) > 1 or new in declared or new in others:
                print(new, sorted(olds), "is a name too" if new in declared else "", "is the library's" if new in others else "")
        return

    def turned(text, mine, is_prose=False):
        def one(found):
            word = found[0]
            if word.startswith("--"):
                listed = word.startswith("--   ")
                inside = lambda it: mine.get(it[0], it[0]) if listed or not re.search(r"\w-\w", it[0]) else it[0]
                word = re.sub(r"`([^`\n]*)`", lambda it: "`" + re.sub(NAME, lambda w: mine.get(w[0], w[0]), it[1]) + "`", word)
                return re.sub(NAME, inside, word)
            if word.startswith('"'):
                return word
            return mine.get(word, word)

        return TOKEN.sub(one, text)

    for path, text in texts.items():
        mine = table
        if is_walk(path):
            goals = set(GOAL.findall(plain[path]))
            own = {it[1] for it in DECLARED.findall(plain[path])} - goals
            mine = {**table, **{it: respelled(it) for it in own if is_odd(it)}}
            mine = {old: new for old, new in mine.items() if old not in goals}
        new = turned(text, mine)
        if new != text:
            with open(path, "w", encoding="utf-8") as it:
                it.write(new)

    for path in sorted(glob.glob("crates/*/src/**/*.rt", recursive=True)):
        text = read(path)

        def line(each):
            if each.lstrip().startswith("//"):
                return each
            return re.sub(r"(?<![\w\".-])" + NAME, lambda it: table.get(it[0], it[0]), each)

        new = "\n".join(map(line, text.split("\n")))
        if new != text:
            with open(path, "w", encoding="utf-8") as it:
                it.write(new)

    for path in ["README.md", *sorted(glob.glob("docs/*.md"))]:
        text = read(path)
        quoted = lambda it: "`" + re.sub(r"[^\s(){},;:`.]+", lambda w: table.get(w[0], w[0]), it[1]) + "`"
        new = re.sub(r"`([^`\n]*)`", quoted, text)
        if new != text:
            with open(path, "w", encoding="utf-8") as it:
                it.write(new)


main()
