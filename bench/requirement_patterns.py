#!/usr/bin/env python3
"""Compares the formulas for patterns in docs/REQUIREMENTS.md with what the patterns say, on all small traces and on some larger ones.

    requirement_patterns.py

What a pattern says is written here by positions and scopes. A loop is gone through some times: what is asked for later comes within a
turn, and so does what is asked of all, or within the four steps that numbers here look back.
"""
import itertools
import os
import random
import re
import sys

sys.path.insert(0, os.path.dirname(os.path.abspath(__file__)))
from formula_values import read, states_of, values  # noqa: E402

PAGE = os.path.join(os.path.dirname(os.path.abspath(__file__)), "..", "docs", "REQUIREMENTS.md")


class Rows:
    """Where letters are true, in a trace whose loop stands there some more times."""

    def __init__(self, trace):
        self.turn = len(trace.get("loop", []))
        self.states = states_of(trace) + (3 + 16 // max(1, self.turn)) * trace.get("loop", [])
        self.first = len(states_of(trace))  # positions below it are those that differ
        self.seen = self.first + bool(self.turn) * max(4, self.turn)  # those below it are looked at
        self.size = len(self.states)

    def has(self, name, i):
        return i < self.size and name in self.states[i]

    def next_of(self, name, i):
        return next((k for k in range(i, self.size) if self.has(name, k)), None)


def scopes(rows, scope):
    """The parts of the trace that are meant, from a position to the one before another."""
    r, q = rows.next_of("r", 0), rows.next_of("q", 0)
    if scope == "always":
        return [(0, rows.size)]
    if scope == "before r":
        return [(0, r)] if r is not None else []
    if scope == "after q":
        return [(q, rows.size)] if q is not None else []
    starts = [i for i in range(rows.first) if rows.has("q", i) and not rows.has("r", i)]
    ends = [(i, rows.next_of("r", i)) for i in starts]
    return [(i, rows.size if k is None else k) for i, k in ends if k is not None or scope == "after q until r"]


def is_met(rows, pattern, i, k):
    p = [n for n in range(i, k) if rows.has("p", n)]
    s = [n for n in range(i, k) if rows.has("s", n)]
    if pattern == "Absence":
        return not p
    if pattern == "Universality":
        return len(p) == k - i
    if pattern == "Existence":
        return bool(p)
    if pattern == "Precedence":
        return all(s and s[0] <= n for n in p)
    return all(s and n <= s[-1] for n in p if n < rows.seen or k < rows.size)


def begins(rows, n):
    return not rows.has("p", n) and rows.has("p", n + 1)


MORE = {  # at each position n
    "each p is answered by s within 3 steps": lambda w, n: not w.has("p", n) or any(w.has("s", n + d) for d in range(4)),
    "each p is answered by s in the next step": lambda w, n: not w.has("p", n) or w.has("s", n + 1),
    "after p there is no s for 3 steps": lambda w, n: not w.has("p", n) or not any(w.has("s", n + d) for d in (1, 2, 3)),
    "once it has begun, p lasts for at least 3 steps":
        lambda w, n: not begins(w, n) or all(w.has("p", n + d) for d in (1, 2, 3) if n + d < w.size),
    "p lasts for no more than 3 steps": lambda w, n: not all(w.has("p", n + d) for d in range(4)),
    "from each step on there is an s within 3 steps": lambda w, n: any(w.has("s", n + d) for d in range(4)),
    "p stays until s": lambda w, n: not w.has("p", n) or all(w.has("p", m) for m in range(n, w.next_of("s", n) or w.size) if not w.has("s", n)),
    "p begins only where s was in the step before": lambda w, n: not begins(w, n) or w.has("s", n),
    "each p has an s within the 3 steps before it, or with it": lambda w, n: not w.has("p", n) or any(w.has("s", m) for m in range(max(0, n - 3), n + 1)),
    "between a p and the next one there is an s, or with the next one":
        lambda w, n: not w.has("p", n) or w.next_of("p", n + 1) is None or (w.next_of("s", n + 1) or w.size) <= w.next_of("p", n + 1),
    "p and s never together": lambda w, n: not (w.has("p", n) and w.has("s", n)),
    "p again and again": lambda w, n: w.next_of("p", n) is not None,
}


def patterns():
    """The tables of the page: a pattern and a scope, or what is asked, and the formula."""
    heading = None
    for line in open(PAGE, encoding="utf-8"):
        heading = line.split(":")[0] if re.match(r"(Absence|Universality|Existence|Precedence|Response): ", line) else heading
        row = re.fullmatch(r"\| (.*) \| `(.*)` \|\n", line)
        if row and (row[1] in ("always", "before r", "after q", "between q and r", "after q until r") or row[1] in MORE):
            yield heading, row[1], read(row[2].replace("\\|", "|").encode())


def traces():
    states = [sorted(set(names)) for k in range(5) for names in itertools.combinations("pqrs", k)]
    for size in (1, 2):
        for row in itertools.product(states, repeat=size):
            yield {"kind": "finite", "states": list(row)}
            for stem in range(size):
                yield {"kind": "infinite", "stem": list(row[:stem]), "loop": list(row[stem:])}
    for seed in range(1500):
        lot = random.Random(seed)
        row = [[name for name in "pqrs" if lot.random() < lot.choice((0.2, 0.4))] for _ in range(lot.randint(3, 8))]
        stem = lot.randrange(len(row))
        yield {"kind": "finite", "states": row} if seed % 2 else {"kind": "infinite", "stem": row[:stem], "loop": row[stem:]}


def main():
    found, wrong = list(patterns()), 0
    for trace in traces():
        rows = Rows(trace)
        for pattern, scope, done in found:
            if scope in MORE:
                wanted = all(MORE[scope](rows, n) for n in range(rows.seen))
            else:
                wanted = all(is_met(rows, pattern, i, k) for i, k in scopes(rows, scope))
            if values(done, trace)[0] != wanted:
                wrong += 1
                if wrong < 6:
                    print(pattern, scope, trace, "wanted", wanted)
    print("%d formulas, %d answers wrong" % (len(found), wrong))
    return wrong > 0


if __name__ == "__main__":
    sys.exit(main())
