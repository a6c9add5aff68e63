#!/usr/bin/env python3
# The report of each ticket of a folder by brute force, in another folder: `brute.py TICKETS REPORTS`, for small tickets alone.
# It goes by the words of docs/LISTING.md: it has the verdict of every set, and looks for the foremost unexplored set, the conflict and the relaxations among all of them.
# Of each line it makes sure that it is minimal, or maximal; and at the end of a listing, that nothing is left out.
import itertools
import os
import sys

MOST_LINES = 512


def told(text):
    lines = text.split("\n")
    requests, checks, count = (int(line.split("=")[1]) for line in lines[1:4])
    rules = []
    for line in lines[4 : 4 + count]:
        letter, value = line.split("=")
        fields = [None if field == "-" else int(field) for field in value.split(",")]
        rules.append((letter, fields[0], fields[1], fields[2:]))
    return requests, checks, rules


# Some choice of the options that the rules name meets all of them.
def options_fit(rules):
    named = sorted({i for head, options in rules for i in options + [head] if i is not None})
    for choice in itertools.product([False, True], repeat=len(named)):
        on = dict(zip(named, choice))
        if all(not all(on[i] for i in options) or (head is not None and on[head]) for head, options in rules):
            return True
    return False


# No ring of gaps adds up to less than nought: the shortest ways from each mark to each.
def gaps_fit(rules):
    far = {(a, b): 0 if a == b else 10**9 for a in range(16) for b in range(16)}
    for a, (b, w) in rules:
        far[a, b] = min(far[a, b], w)
    for via, a, b in itertools.product(range(16), repeat=3):
        far[a, b] = min(far[a, b], far[a, via] + far[via, b])
    return all(far[a, a] >= 0 for a in range(16))


# No sum of some of the rules has no face and is odd.
def faces_fit(rules):
    sums = {(frozenset(), 0)}
    for bit, faces in rules:
        sums |= {(members ^ frozenset(faces), odd ^ bit) for members, odd in sums}
    return (frozenset(), 1) not in sums


def fit(rules, chosen):
    of = {letter: [rule[2:] for rule in rules if rule[0] == letter and (rule[1] == 0 or rule[1] in chosen)] for letter in "hgf"}
    return options_fit(of["h"]) and gaps_fit(of["g"]) and faces_fit(of["f"])


class Spent(Exception):
    pass


class Listing:
    def __init__(self, requests, left, rules):
        self.requests = requests
        self.left = left
        self.checks = 0
        self.lines = []
        everyone = range(1, requests + 1)
        # from the greatest keep weight downward
        self.sets = sorted((frozenset(c) for n in range(requests + 1) for c in itertools.combinations(everyone, n)), key=lambda s: [r not in s for r in everyone])
        self.fit = {s: fit(rules, s) for s in self.sets}
        self.conflicts = [s for s in self.sets if not self.fit[s] and all(self.fit[s - {r}] for r in s)]
        self.relaxations = [s for s in self.sets if self.fit[s] and all(not self.fit[s | {r}] for r in everyone if r not in s)]

    def check(self, chosen):
        if self.left == 0:
            raise Spent
        self.left -= 1
        self.checks += 1
        return self.fit[frozenset(chosen)]

    def explored(self, chosen):
        return any(line <= chosen if kind == "conflict" else chosen <= line for kind, line in self.lines)

    def halve(self, held, added, part):
        if added and not self.check(held):
            return []
        if len(part) <= 1:
            return part
        first, second = part[: len(part) // 2], part[len(part) // 2 :]
        upper = self.halve(held + first, first, second)
        return self.halve(held + upper, upper, first) + upper

    def list_line(self, kind, chosen):
        assert chosen in (self.conflicts if kind == "conflict" else self.relaxations) and (kind, chosen) not in self.lines
        self.lines.append((kind, chosen))

    def next(self):
        if self.checks == 0 and not self.check([]):
            return self.list_line("conflict", frozenset())
        seed = next((s for s in self.sets if not self.explored(s)), None)
        if seed is None:
            return "all"
        if len(self.lines) >= MOST_LINES:
            return "full"
        if self.check(seed):
            assert seed == next(s for s in self.relaxations if ("relaxation", s) not in self.lines)
            return self.list_line("relaxation", seed)
        blamed = frozenset(self.halve([], [], sorted(seed)))
        assert blamed == min((c for c in self.conflicts if c <= seed), key=lambda s: sum(1 << r for r in s))
        return self.list_line("conflict", blamed)

    def ended(self):
        try:
            while (end := self.next()) is None:
                pass
        except Spent:
            return "spent,1"
        if end == "all":
            assert len(self.lines) == len(self.conflicts) + len(self.relaxations)
        return end


def report(text):
    requests, checks, rules = told(text)
    listing = Listing(requests, checks, rules)
    ended = listing.ended()
    shown = [f"{kind}=" + (",".join(map(str, sorted(chosen))) or "-") for kind, chosen in listing.lines]
    sizes = sum(len(chosen) for kind, chosen in listing.lines if kind == "conflict")
    depth = max(requests - 1, 0).bit_length()
    bound = 1 + len(shown) + 2 * depth * sizes
    return "".join(line + "\n" for line in [f"requests={requests}"] + shown + [f"checks={listing.checks}", f"bound={bound}", f"ended={ended}"])


def main():
    tickets, reports = sys.argv[1:]
    os.makedirs(reports, exist_ok=True)
    for name in os.listdir(tickets):
        with open(os.path.join(tickets, name)) as ticket, open(os.path.join(reports, name), "w") as out:
            out.write(report(ticket.read()))


main()
