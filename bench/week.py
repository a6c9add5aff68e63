#!/usr/bin/env python3
# Writes made-up tickets into folders below the one that is named, the same at each run:
# week: 4,480 tickets as print rooms may send them; hard: the families of crates/seeds/src/family.rt, by rules on options, and some more;
# small: tickets for brute.py; refused: tickets with a fault. `week.py FOLDER` writes all of them.
import os
import random
import sys

WEEK = 4480


def text(requests, checks, rules):
    return "".join(line + "\n" for line in ["ticket=1", f"requests={requests}", f"checks={checks}", f"rules={len(rules)}"] + rules + ["end=ticket"])


def rule(letter, *fields):
    return f"{letter}=" + ",".join(map(str, fields))


def some(draw, among, least, most):
    return sorted(draw.sample(among, min(len(among), draw.randint(least, most))))


# The rules of the house and of the requests on options: the requests turn options on, options turn others on, and some exclude each other.
def options(draw, requests, count, among):
    rules = []
    for _ in range(count):
        kind = draw.random()
        if requests and kind < 0.55:
            rules.append(rule("h", draw.randint(1, requests), draw.choice(among), *some(draw, among, 0, draw.choice([0, 0, 0, 1, 2]))))
        elif kind < 0.8:
            rules.append(rule("h", draw.choice([0, 0, 0, draw.randint(0, requests)]), draw.choice(among), *some(draw, among, 1, 3)))
        else:
            rules.append(rule("h", draw.choice([0, 0, 0, draw.randint(0, requests)]), "-", *some(draw, among, 2, draw.choice([2, 2, 3, 5, 8]))))
    return rules


# Gaps that some places meet; and some that ask a little more than these places have.
def gaps(draw, requests, count, marks, slack):
    place = [draw.randint(0, 3000) for _ in range(16)]
    rules = []
    for _ in range(count):
        a, b = draw.sample(marks, 2)
        more = draw.randint(0, 400) if draw.random() > slack else -draw.randint(1, 600)
        rules.append(rule("g", draw.randint(0, requests), a, b, place[a] - place[b] + more))
    return rules


# Sums of faces that some choice meets; and some with the other bit.
def faces(draw, requests, count, among, wrong):
    back = [draw.randint(0, 1) for _ in range(32)]
    rules = []
    for _ in range(count):
        members = some(draw, among, 1, draw.choice([2, 2, 3, 4, 8]))
        odd = sum(back[i] for i in members) % 2
        rules.append(rule("f", draw.randint(0, requests), 1 - odd if draw.random() < wrong else odd, *members))
    return rules


# So many rules of three letters, in any order.
def mixed(draw, requests, count, width):
    shares = [draw.random() for _ in range(3)]
    if draw.random() < 0.3:
        shares[draw.randrange(3)] = 0.0
    h, g = (round(count * share / sum(shares)) for share in shares[:2])
    h = min(h, count)
    g = min(g, count - h)
    rules = options(draw, requests, h, range(width))
    rules += gaps(draw, requests, g, range(max(2, width // 2)), draw.choice([0, 0.02, 0.1, 0.3]))
    rules += faces(draw, requests, count - h - g, range(width), draw.choice([0, 0.02, 0.1, 0.3]))
    draw.shuffle(rules)
    return rules


def week(draw):
    kind = draw.random()
    if kind < 0.01:
        requests = 0
    elif kind < 0.08:
        requests = draw.randint(1, 2)
    elif kind < 0.85:
        requests = draw.randint(3, 12)
    elif kind < 0.97:
        requests = draw.randint(13, 20)
    else:
        requests = draw.randint(21, 32)
    count = min(96, round((requests + 2) * draw.uniform(0, 4)) + draw.choice([0, 0, 0, 10, 30]))
    return text(requests, draw.choice([50, 100, 100, 200, 500, 1000]), mixed(draw, requests, count, draw.choice([8, 16, 32])))


def small(draw):
    requests = draw.randint(0, 7)
    return text(requests, draw.choice([0, 1, 2, 5, 10, 20, 50, 100, 1000, 1000000]), mixed(draw, requests, draw.randint(0, 20), draw.choice([4, 6, 7])))


# A ticket with some bytes changed, left out or put in, or a line doubled, or cut off; most are refused.
def refused(draw):
    text = list(small(draw))
    if draw.random() < 0.1:
        return "".join(text[: draw.randrange(len(text))])
    for _ in range(draw.choice([1, 1, 1, 2, 4])):
        at = draw.randrange(len(text))
        kind = draw.randrange(4)
        if kind == 0:
            text[at] = draw.choice("0123456789,-=hgf\n ")
        elif kind == 1:
            text.insert(at, draw.choice("0123456789,-=hgf\n "))
        elif kind == 2:
            del text[at]
        else:
            lines = "".join(text).split("\n")
            lines.insert(draw.randrange(len(lines)), draw.choice(lines))
            text = list("\n".join(lines))
    return "".join(text) + "x" * draw.choice([0] * 40 + [16384])


def pairs(first, count):
    return [(first + 2 * i, first + 2 * i + 1) for i in range(count)]


def plane(first):
    return [(first + i, first + (i + 1) % 7, first + (i + 3) % 7) for i in range(7)]


# Each by its requests and its minimal conflicts.
FAMILIES = {
    "pairs-last": (32, pairs(15, 9)),
    "pairs-first": (32, pairs(1, 9)),
    "nested": (32, [(i, 33 - i) for i in range(1, 10)]),
    "triples": (32, [(18 + 3 * i, 19 + 3 * i, 20 + 3 * i) for i in range(5)]),
    "planes": (32, plane(12) + plane(19) + plane(26)),
    "star": (32, [(i, 32) for i in range(1, 14)] + pairs(14, 7)),
    "rings": (32, [range(8 * i + 1, 8 * i + 9) for i in range(4)]),
    "pool": (32, [(i, 29 + i % 4) for i in range(1, 29)] + [(29, 30), (29, 31), (29, 32), (30, 31), (30, 32), (31, 32)]),
    "eighteen": (18, pairs(1, 9)),
}


# Each request turns on an option of its own, and the options of a conflict are not all on.
def by_options(requests, conflicts):
    return [rule("h", r, r - 1) for r in range(1, requests + 1)] + [rule("h", 0, "-", *sorted(r - 1 for r in conflict)) for conflict in conflicts]


# The same, with the other rules filled up by gaps and sums of faces that can always be met: the longest of all tickets to check.
def filled(requests, conflicts):
    draw = random.Random(2)
    rules = by_options(requests, conflicts)
    half = (96 - len(rules)) // 2
    return rules + gaps(draw, requests, half, range(16), 0) + faces(draw, requests, 96 - half - len(rules), range(32), 0)


def write(folder, tickets):
    os.makedirs(folder, exist_ok=True)
    for name, ticket in tickets:
        with open(os.path.join(folder, f"{name}.ticket"), "w") as file:
            file.write(ticket)


def numbered(count, make, seed):
    draw = random.Random(seed)
    return [(f"{i:04}", make(draw)) for i in range(count)]


def main():
    folder = sys.argv[1]
    write(os.path.join(folder, "week"), numbered(WEEK, week, 1))
    write(os.path.join(folder, "small"), numbered(300, small, 3))
    write(os.path.join(folder, "refused"), numbered(400, refused, 4))
    hard = [(name, text(requests, 1_000_000, by_options(requests, conflicts))) for name, (requests, conflicts) in FAMILIES.items()]
    hard.append(("pairs-filled", text(32, 1_000_000, filled(*FAMILIES["pairs-last"]))))
    write(os.path.join(folder, "hard"), hard)


main()
