#!/usr/bin/env python3
# Writes the tickets that bench/measure takes, `tickets.py KIND CHECKS`: 96 rules of one letter, or of all three, with 32 requests; or no rule, or one that cannot be met.
import random
import sys


def ticket(rules, checks):
    lines = ["ticket=1", "requests=32", f"checks={checks}", f"rules={len(rules)}"] + rules + ["end=ticket"]
    return "".join(line + "\n" for line in lines)


def options(count, draw):
    # every request turns an option on; the rest are rules of three options with a head, and a few without one
    rules = [f"h={r},{r - 1}" for r in range(1, count // 3 + 1)]
    while len(rules) < count:
        members = sorted(draw.sample(range(32), 3))
        head = "-" if len(rules) % 16 == 0 else draw.randrange(32)
        rules.append(f"h=0,{head}," + ",".join(map(str, members)))
    return rules


def chain(count):
    # the longest way: a chain through all options, each rule before the one that it waits for
    rules = [f"h=0,{i + 1},{i}" for i in range(30, -1, -1)] + ["h=0,0"]
    return rules + [f"h=0,31,{i % 31},31" for i in range(count - len(rules))]


def gaps(count, draw):
    place = [draw.randrange(0, 3000) for _ in range(16)]
    rules = []
    while len(rules) < count:
        a, b = draw.sample(range(16), 2)
        rules.append(f"g={len(rules) % 33},{a},{b},{place[a] - place[b] + draw.randrange(0, 3)}")
    return rules


def faces(count, draw):
    back = [draw.randrange(2) for _ in range(32)]
    rules = []
    while len(rules) < count:
        members = sorted(draw.sample(range(32), draw.randrange(2, 9)))
        rules.append(f"f={len(rules) % 33},{sum(back[i] for i in members) % 2}," + ",".join(map(str, members)))
    return rules


def main():
    kind, checks = sys.argv[1], int(sys.argv[2])
    draw = random.Random(1)
    if kind == "none":
        rules = []
    elif kind == "bar":
        rules = ["h=32,-"]
    elif kind == "all":
        rules = options(32, draw) + gaps(32, draw) + faces(32, draw)
    else:
        rules = {"h": options, "g": gaps, "f": faces}[kind](96, draw) if kind != "chain" else chain(96)
    sys.stdout.write(ticket(rules, checks))


main()
