#!/usr/bin/env python3
"""Brings the names that this repository's specs/ and proofs/ declare to the kit's spelling.

usage: python3 tools/respell.py       at the top of the repository, once, after the kit's port.py

A name that a definition, a lemma, a constructor or a field has there is written in snake case: sumBelow-suc becomes
sum_below_suc. Types keep their capitals. Names that Rattle makes (they stand in proofs/F/ alone) and names of the
kit's library stay. ALONE lists the names whose spelling the rule does not give, among them seven pairs that would
fall together: there the lemma gets the ending _lem. The must-fail edits and the pages that name a definition follow.
In a comment a name that grows takes the room from the blanks behind it, so that columns stay.
"""

import os
import re
import sys

NAME = r"[^\s(){}.;,@\"«»]+"
# a token of the pages and of the edits may also stand between backquotes, quotes, brackets or behind a bar
TOKEN = re.compile(r"[^\s(){}.;,@\"«»`|\[\]:?!*\\/]+")
DECLARED = re.compile(r"(?m)^\s*(?:(?:unfoldable|abbrev|pub|data|record|package)\s+)*(" + NAME + r")(?:\s*[({].*?)?\s*:\s")
ALONE = {
    "gainsWith-at": "gains_with_at_lem",
    "climbed-at": "climbed_at_lem",
    "hard-gain": "hard_gain_lem",
    "soft-gain": "soft_gain_lem",
    "heard-two": "heard_two_lem",
    "heard-four": "heard_four_lem",
    "message-bits": "message_bits_lem",
    "getD-inside": "get_or_inside",
    "getD-mem": "get_or_mem",
    "inUseFrom2": "in_use_from_2",
    "numbersFrom2": "numbers_from_2",
    # names that a lemma binds in its body
    "Heard-as-Found": "HeardFound",
    "Heard-as-Refused": "HeardRefused",
    "Matched-as-Found": "MatchedFound",
    "Matched-as-Refused": "MatchedRefused",
    "is-k": "is_k",
    "is-z": "is_z",
    "m-fits": "m_fits",
}
PAGES = ["README.md", "docs", "tests", "bench/README.md", "include", "examples"]
HISTORY = ["docs/CHANGES.md"]  # says what earlier landings did, under the names of then
PAGE_ENDINGS = (".md", ".h", ".c", ".rs", ".edit")


def in_snake_case(name):
    if name in ALONE:
        return ALONE[name]
    if name[0].islower() or not name[0].isalpha():
        name = re.sub(r"(?<=[a-z0-9])[A-Z]", lambda m: "_" + m[0].lower(), name)
    return name.replace("-", "_")


def files(top, endings):
    if os.path.isfile(top):
        yield top
    for folder, dirs, names in os.walk(top):
        dirs[:] = sorted(d for d in dirs if d not in ("out", "target"))
        for name in sorted(names):
            if name.endswith(endings):
                yield os.path.join(folder, name)


def read(path):
    with open(path, encoding="utf-8") as f:
        return f.read()


def of_a_function(path):
    return re.search(r"/proofs/[^/]+/", path) is not None


def table():
    lemmas, made, library = set(), set(), set()
    for path in files("crates", (".antt",)):
        text = read(path)
        (made if of_a_function(path) else lemmas).update(DECLARED.findall(text))
        for module, items in re.findall(r"(?m)^use ([^\s{]+)\{([^}]*)\}", text):
            if not module.startswith("Rattle.") or module.startswith("Rattle.std."):
                library.update(i.split(" as ")[0].strip() for i in items.split(","))
    found = {n: in_snake_case(n) for n in (lemmas - library) | set(ALONE)}
    found = {old: new for old, new in found.items() if old != new}
    ends = list(found.values())
    twice = sorted(old for old, new in found.items() if ends.count(new) > 1)
    if twice:
        sys.exit("names that fall together: " + " ".join(twice))
    return found


def turned(text, found):
    lines = []
    for line in text.split("\n"):
        out, at, owed = [], 0, 0
        comment = line.lstrip().startswith(("--", "//"))
        for m in TOKEN.finditer(line):
            gap = line[at : m.start()]
            if comment and owed and re.match(r" {2,}", gap):
                cut = min(owed, len(gap) - 2) if owed > 0 else 0
                gap, owed = gap[cut:], owed - cut
            new = found.get(m[0], m[0])
            owed += len(new) - len(m[0])
            out += [gap, new]
            at = m.end()
        lines.append("".join(out) + line[at:])
    return "\n".join(lines)


def main():
    found = table()
    paths = list(files("crates", (".antt", ".rt", ".edit")))
    for page in PAGES:
        paths += [p for p in files(page, PAGE_ENDINGS) if p not in HISTORY]
    for path in paths:
        text = read(path)
        new = turned(text, found)
        if new != text:
            with open(path, "w", encoding="utf-8") as f:
                f.write(new)
    print(f"{len(found)} names")
    for old in sorted(found):
        print(old, found[old])


if __name__ == "__main__":
    main()
