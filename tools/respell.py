#!/usr/bin/env python3
"""Respells this repository's own definitions and lemmas as today's Rattle has it.

usage: python3 tools/respell.py            once, at the top of the repository, after the kit's port.py

A name that is declared in specs/ or proofs/ and has a dash or a capital inside is turned: a word into snake case
(left-of: left_of, nodeAt: node_at), a type or a fact into upper camel case (Links-equal: LinksEqual). Within a file,
a local name with a dash (of a let, a λ or a binder) is turned too. Names of std stay, and so do names that a proof file
has from Rattle itself (goals, steps, fields), but where they are spelled as one of ours, and then need the same turn.
Where two names of one text would fall together and mean two things, CHOSEN has the new one; a definition may get the
name of the function that it describes. Strings and comments keep their text, but for names in backticks.
"""

import collections
import glob
import os
import re
import sys

# names that would fall together with another in the same text: the lemmas on `bit` have its name first, as std's have
CHOSEN = {"bit-and": "bit-bit_and", "bit-xor": "bit-bit_xor", "sameBool": "same_bit"}
# kept: a dash that joins a name to an operator, as std's own
KEPT = {"covered-++"} | set(CHOSEN.values())
# names given where another is imported; one that the kit's script turned halfway, and one that is a tactic's name today
ALIASES = {"firstVar": "first_var", "childOf": "child_of", "Goes_on": "GoesOn", "first_of": "first_some"}

DECLARED = re.compile(
    r"^\s*(?:(?:unfoldable|abbrev|pub|data|record|ruleset)\s+)*([^\s(){}:,;=]+)((?:\s+[({][^:]*:[^=]*)*)\s*:\s(.*)$"
)
LOCAL = [
    re.compile(r"\blet ([a-z][^\s:=(){},;]*-[^\s:=(){},;]*)"),
    re.compile(r"λ \(?([a-z][^\s:.=(){},;]*-[^\s:.=(){},;]*)"),
]
BINDER = re.compile(r"[({]([^(){}:]+) : ")
TOKEN = re.compile(r"[^\s(){}\[\],;.|`:\"]+")


def sources():
    for kind in ("antt", "rt", "edit"):
        for path in sorted(glob.glob("crates/**/*." + kind, recursive=True)):
            if "/out/" not in path:
                yield path
    yield from sorted(set(glob.glob("docs/*.md")) - {"docs/PORT.md"})  # which names old and new
    yield "README.md"


def new_name(name):
    if name in CHOSEN:
        return CHOSEN[name]
    if name[0].isupper():
        return "".join(part[:1].upper() + part[1:] for part in name.split("-"))
    return re.sub(r"(?<=[a-z0-9])([A-Z])", lambda m: "_" + m[1].lower(), name).replace("-", "_")


def declared(texts):
    """The names that specs/ and proofs/ declare, but not the goals that a proof file answers."""
    found = set()
    for path, text in texts.items():
        if not path.endswith(".antt"):
            continue
        for line in text.split("\n"):
            m = DECLARED.match(line)
            if m and not m[1].startswith("--") and not re.search(r"\bgoal\." + re.escape(m[1]) + r"(?![\w'-])", m[3]):
                found.add(m[1])
    return {n for n in found if re.match(r"[A-Za-z]", n) and new_name(n) != n}


def locals_of(text):
    found = set()
    for line in text.split("\n"):
        code = line.split("--")[0]
        for pattern in LOCAL:
            found.update(pattern.findall(code))
        for group in BINDER.findall(code):
            found.update(group.split())
    return {n for n in found if re.fullmatch(r"[a-z][A-Za-z0-9]*(-[A-Za-z0-9]+)+", n)}


def turn(code, names, local):
    def one(m):
        word = m[0]
        if word in names:
            return names[word]
        if word in local and (m.start() == 0 or code[m.start() - 1] != "."):
            return new_name(word)
        return word

    return TOKEN.sub(one, code)


def turned(path, text, names, local):
    if path.endswith(".md"):
        return re.sub(r"`[^`\n]*`", lambda m: turn(m[0], names, set()), text)
    mark = "--" if path.endswith(".antt") else "//"
    out = []
    for line in text.split("\n"):
        at = re.search(r"(?<![^\s])" + mark, line)
        code, comment = (line[: at.start()], line[at.start():]) if at else (line, "")
        if path.endswith(".antt"):
            code = turn(code, names, local)
        else:
            parts = re.split(r'("(?:[^"\\]|\\.)*")', code)
            code = "".join(p if i % 2 else turn(p, names, local) for i, p in enumerate(parts))
        comment = re.sub(r"`[^`]*`", lambda m: turn(m[0], names, local), comment)
        out.append(code + comment)
    return "\n".join(out)


def main():
    texts = {path: open(path, encoding="utf-8").read() for path in sources() if os.path.exists(path)}
    names = {n: new_name(n) for n in declared(texts) - KEPT} | ALIASES
    words = collections.Counter(w for p, t in texts.items() if p.endswith(".antt") for w in set(TOKEN.findall(t)))
    backward = collections.defaultdict(set)
    for old, new in sorted(names.items()):
        backward[new].add(old)
        if words[new]:
            print(f"look: {old} is now {new}, which {words[new]} files had already")
    for new, olds in sorted(backward.items()):
        if len(olds) > 1:
            print(f"look: {sorted(olds)} fall together as {new}")
    for path, text in texts.items():
        local = locals_of(text) if path.endswith(".antt") else set()
        after = turned(path, text, names, local)
        if after != text:
            with open(path, "w", encoding="utf-8") as f:
                f.write(after)
    print(f"respelled {len(names)} names")


if __name__ == "__main__":
    sys.exit(main())
