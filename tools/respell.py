#!/usr/bin/env python3
"""Brings this repository's own definitions and lemmas to the spelling of today's Rattle: types in camel case, all else in snake case.

usage: python3 tools/respell.py            at the top, once, right after the port script of the kit
       python3 tools/respell.py --list     only lists what it would turn

It turns each name with a dash that a file of crates/*/specs or crates/*/proofs declares (goals that Rattle names keep theirs), in the .antt and
.rt files of crates/. Texts and comments stay, but for names in backticks. NAMED has the names that would fall together with another.
"""
import os
import re
import sys

# a name that its plain spelling would give to two things, or that says nothing: old, new
NAMED = {
    "bit-and": "bit_of_and",  # `bit_and` and `bit_or` are the library's
    "bit-or": "bit_of_or",
    "bit-xor": "bit_of_xor",
    "If-some": "IfValid",  # `IfSome` is the library's
    "type_size": "count_of_members",  # what the port script made of `size as size-of`
}
WORD = re.compile(r"[^\s(){}\[\].,;:=\"|`⌜⌝]+")
DECLARED = re.compile(r"^\s*(?:abbrev |unfoldable |let )?(?:pub )?(?:record |data |abbrev |unfoldable )?([^\s:(]+)(?: [({].*)? :(?: (.*))?$")
RENAMED = re.compile(r" as ([^\s,}]+)")


def files(top):
    for folder, dirs, names in os.walk(os.path.join(top, "crates")):
        dirs[:] = sorted(d for d in dirs if d != "out")
        for n in sorted(names):
            if n.endswith((".antt", ".rt")):
                yield os.path.join(folder, n)


def turned(name):
    if name in NAMED:
        return NAMED[name]
    if name[0].isupper():
        return "".join(p[:1].upper() + p[1:] for p in name.split("-"))
    return name.replace("-", "_")


def declared(top):
    """The names with a dash that the files declare, bind by `let`, or give to what they import, and what each turns into."""
    found = {}

    def note(name):
        if re.fullmatch(r"[A-Za-z][A-Za-z0-9_']*(-[A-Za-z0-9_']+)+", name):
            found[name] = turned(name)

    for p in files(top):
        with open(p, encoding="utf-8") as f:
            for line in f:
                if line.lstrip().startswith(("use ", "ghost use ")):
                    for name in RENAMED.findall(line):
                        note(name)
                m = DECLARED.match(line) if p.endswith(".antt") else None
                if m and not line.lstrip().startswith("--") and not (m.group(2) or "").startswith(("goal.", "need.")):
                    note(m.group(1))
    found["type_size"] = NAMED["type_size"]
    return found


def words(text, names):
    return WORD.sub(lambda m: names.get(m.group(0), m.group(0)), text)


def line_turned(line, names, comment):
    """A line, of which texts stay, and comments but for what is in backticks."""
    at = line.find(comment)
    while at > 0 and line[:at].count('"') % 2:
        at = line.find(comment, at + 1)
    code, note = (line, "") if at < 0 else (line[:at], line[at:])
    parts = re.split(r'("(?:[^"\\]|\\.)*")', code)
    code = "".join(p if i % 2 else words(p, names) for i, p in enumerate(parts))
    note = re.sub(r"`[^`]*`", lambda m: words(m.group(0), names), note)
    return code + note


def main():
    top = os.getcwd()
    names = declared(top)
    if "--list" in sys.argv:
        for old in sorted(names):
            print(old, names[old])
        return
    for p in files(top):
        with open(p, encoding="utf-8") as f:
            text = f.read()
        comment = "--" if p.endswith(".antt") else "//"
        new = "".join(line_turned(l, names, comment) for l in text.splitlines(keepends=True))
        if new != text:
            with open(p, "w", encoding="utf-8") as f:
                f.write(new)


main()
