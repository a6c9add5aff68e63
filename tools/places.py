"""Lists the places of a tree that read like an older Rattle, point by point: python3 tools/places.py [DIR] [POINT].

It goes by text, so each place that it lists is then judged by reading: docs/DESIGN-PASS.md says what became of each.
"""
import collections
import glob
import itertools
import os
import re
import sys

TREE = sys.argv[1] if len(sys.argv) > 1 else "."
ONLY = sys.argv[2] if len(sys.argv) > 2 else ""
HEAD = re.compile(r"^ *(?:pub )?fn (\w+)", re.M)


def code(text):
    """The text without comments, and without what only proofs read."""
    text = re.sub(r"//[^\n]*", "", text)
    text = re.sub(r"^ *ghost use [^\n]*;\n", "", text, flags=re.M)
    return re.sub(r"^ *(?:ensures|requires)\b[^\n]*\n", "", text, flags=re.M)


def functions():
    for path in sorted(glob.glob(os.path.join(TREE, "crates/*/src/**/*.rt"), recursive=True)):
        text = code(open(path).read())
        starts = [m for m in HEAD.finditer(text)]
        for i, m in enumerate(starts):
            end = starts[i + 1].start() if i + 1 < len(starts) else len(text)
            whole = re.split(r"\n(?:impl|pub struct|struct|pub enum|enum|const|pub const|#\[)", text[m.start():end])[0]
            sign, _, body = whole.partition("{")
            yield os.path.relpath(path, TREE), m.group(1), " ".join(sign.split()), body


def params(sign):
    inner = sign.partition("(")[2].rpartition(")")[0]
    return [p.strip().replace("'a ", "") for p in re.split(r",(?![^\[\](<]*[\])>])", inner) if ":" in p]


def shape(body):
    body = re.sub(r'b?"[^"]*"|\d[\d_]*', "0", body)
    return re.sub(r"\b[A-Z]\w*(<[^;{}()]*?>)?", "T", " ".join(body.split()))


ALL = list(functions())
FOUND = collections.OrderedDict((n, []) for n in "12345678")


def note(point, path, name, what):
    FOUND[point].append(f"{path} {name}: {what}")


# 1: a flag beside what was written, a flag in a struct, numbers for refusals, an Option or Result taken apart by hand
for path, name, sign, body in ALL:
    if re.search(r"&mut \[|&mut Vec", sign) and sign.endswith("-> bool"):
        note("1", path, name, "a flag beside what it writes")
    if name in ("number", "told") and re.search(r"=> \(?\d+[,)]", body):
        note("1", path, name, "numbers for refusals")
    if re.search(r"^ *(None|Ok\(\w+\)|Err\(\w+\)|Some\(0\)) =>|_ => None|_ => Err|\{ None => ", body, re.M):
        note("1", path, name, "an Option or a Result taken apart")
for path in sorted(glob.glob(os.path.join(TREE, "crates/*/src/**/*.rt"), recursive=True)):
    for m in re.finditer(r"struct (\w+)[^{;]*\{([^}]*\bbool,[^}]*)", code(open(path).read())):
        flags = re.findall(r"(\w+): bool", m.group(2))
        if len(re.findall(r"\w+: ", m.group(2))) > len(flags):
            note("1", os.path.relpath(path, TREE), m.group(1), "flags " + ", ".join(flags))

# 2: bodies of the same shape, but for types, numbers and text
groups = collections.defaultdict(list)
for path, name, sign, body in ALL:
    if len(shape(body)) > 12:
        groups[shape(body)].append(f"{path} {name}")
for same in groups.values():
    if len(same) > 1:
        FOUND["2"].append(" = ".join(same))

# 3: an index or a count kept by hand
for path, name, sign, body in ALL:
    for m in re.finditer(r"for (\w+) in [^{]*\.\.", body):
        if re.search(r"\[" + m.group(1) + r"\b", body):
            note("3", path, name, "a loop over an index")
    if re.search(r"\bwhile\b|\bloop \{", body):
        note("3", path, name, "while")
    if re.search(r"\+= 1;|= \w+\.saturating_add\(1\)", body):
        note("3", path, name, "a count kept by hand")
    if re.search(r"for [^{]*\{\s*if [^{]*\{\s*return", body):
        note("3", path, name, "a search by hand")

# 4: equality, order, conversion and printing by hand
for path, name, sign, body in ALL:
    if re.search(r"\bfn ((bits|number|value|(to|into)_\w+|eq|cmp)\(&?self\b|kind_of\b)", sign):
        note("4", path, name, "a conversion or comparison")
    for m in re.finditer(r"(?:\w+(?:\([^()]*\)|\.\w+)*|\([^()]*\)) as (?:u32|i32|u64)\b", body):
        note("4", path, name, m.group(0))
    if re.search(r"^ *(Some\(0\) => true|None => true|Ok\(\w+\) => \w+\.fit),", body, re.M):
        note("4", path, name, "equality or order by a match")

# 5: parameters that travel together through three functions or more
pairs = collections.defaultdict(set)
for path, name, sign, body in ALL:
    for a, b in itertools.combinations(sorted(set(params(sign))), 2):
        pairs[(os.path.dirname(path), a, b)].add(name)
for (where, a, b), names in sorted(pairs.items()):
    if len(names) > 2:
        FOUND["5"].append(f"{where} ({a}, {b}): {', '.join(sorted(names))}")

# 6: a table with its length beside it
for path, name, sign, body in ALL:
    if re.search(r"&mut \[[^\]]*; \w+\]", sign) and "usize" in sign.rpartition("->")[2]:
        note("6", path, name, "fills a table and answers how far")
    if re.search(r"let mut \w+ = \[[^\]]*; \w+\]", body):
        note("6", path, name, "a table of fixed length")
for path in sorted(glob.glob(os.path.join(TREE, "crates/*/src/**/*.rt"), recursive=True)):
    for m in re.finditer(r"struct (\w+)[^{;]*\{([^}]*\[\w+; \w+\][^}]*)", code(open(path).read())):
        note("6", os.path.relpath(path, TREE), m.group(1), "a table in a struct")

# 7: a switch that picks what to run
for path, name, sign, body in ALL:
    m = re.search(r"match (?:kind|style|step[.\w]*) \{(.*?)\n    \}", body, re.S)
    if m and re.search(r"=> [\w:]+\(", m.group(1)):
        note("7", path, name, "a switch on what to run")

# 8: answers that are written out, and lemmas
for kind, pattern in (("answers", "**/Answers.antt"), ("invariants", "**/Invariants.antt"), ("lemmas", "*.antt")):
    for crate in sorted(glob.glob(os.path.join(TREE, "crates/*"))):
        n = 0
        for path in glob.glob(os.path.join(crate, "proofs", pattern), recursive=True):
            text = open(path).read()
            n += len(re.findall(r"^(?:abbrev )?(?:pub )?[\w◌][^\n]* : ", text, re.M))
        if n:
            FOUND["8"].append(f"{os.path.basename(crate)}: {n} {kind}")

for point, places in FOUND.items():
    if ONLY in ("", point):
        print(f"point {point}: {len(places)}")
        for place in places:
            print("  " + place)
