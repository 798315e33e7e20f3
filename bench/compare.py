#!/usr/bin/env python3
"""Compares `black-refute` with `black solve` on random formulas of both kinds, with past and bounded operators.

    compare.py [COUNT [SEED]]     so many formulas (5000), drawn from the seed (1)

Each trace is held against its formula by `black trace`, each certificate is judged by `black-refute --check` and by
examples/check_claims.py. What goes wrong is printed, and then the status is 1. The programs are built first, as `./black` builds them.
Four formulas are asked about at a time.
"""
import collections
import concurrent.futures
import os
import random
import subprocess
import sys

TOP = os.path.dirname(os.path.dirname(os.path.abspath(__file__)))
BLACK, REFUTE = TOP + "/crates/black_main/out/black_main", TOP + "/crates/black_refute/out/black_refute"
sys.path.insert(0, TOP + "/examples")

import check_claims

UNARY = ["!", "X", "wX", "F", "G", "Y", "Z", "O", "H"]
BINARY = ["&", "|", "->", "<->", "U", "R", "W", "M", "S", "T"]


def formula_of(draw, size, letters, has_past):
    """A formula of so many nodes at most."""
    if size <= 1:
        return draw.choice(["!", ""]) + draw.choice(letters) if draw.randrange(12) else draw.choice(["true", "false"])
    way = draw.randrange(10)
    if way < 4:
        operator = draw.choice(UNARY if has_past else UNARY[:5])
        return "%s (%s)" % (operator, formula_of(draw, size - 1, letters, has_past))
    if way == 4:
        low = draw.randrange(3)
        bounds = "[%d]" % low if draw.randrange(2) else "[%d,%d]" % (low, low + draw.randrange(3))
        operator = draw.choice(("XY" if has_past else "X") if "," not in bounds else ("FGOH" if has_past else "FG"))
        return "%s%s (%s)" % (operator, bounds, formula_of(draw, size - 1, letters, has_past))
    left = draw.randrange(1, size)
    parts = [formula_of(draw, part, letters, has_past) for part in (left, size - left)]
    return "(%s) %s (%s)" % (parts[0], draw.choice(BINARY if has_past else BINARY[:8]), parts[1])


def drawn(number, seed):
    """Formula number so many of a seed: a conjunction over a few letters, and whether it is asked about finite traces."""
    draw = random.Random("%d of %d" % (number, seed))
    letters, has_past = ["p", "q", "r", "s"][:draw.randrange(2, 5)], draw.randrange(2) == 1
    parts = [formula_of(draw, draw.randrange(2, 9), letters, has_past) for _ in range(draw.randrange(2, 9))]
    parts = [draw.choice(["G (%s)", "F (%s)", "G F (%s)", "%s", "%s"]) % part for part in parts]
    return " & ".join("(%s)" % part for part in parts), draw.randrange(2) == 1


def said(program, words, text):
    done = subprocess.run(["timeout", "20", program, *words], input=text.encode(), capture_output=True)
    return done.stdout.decode()


def compared(number, seed):
    """What the two said of a formula, and what is wrong."""
    text, finite = drawn(number, seed)
    kind, wrong = ["--finite"] * finite, []
    told = said(BLACK, ["solve", "--depth", "40", *kind], text)
    ours = said(REFUTE, ["--cert", "--steps", "100000", *kind], text)
    one, other = told.split(" ")[0] or "-", ours.split("\n")[0] or "-"
    if {one, other} == {"SAT", "UNSAT"}:
        wrong.append("%s, not %s" % (other, one))
    if other == "SAT":
        trace = ours.partition("\n")[2]
        if said(BLACK, ["trace"], text + "\n---\n" + trace) != "HOLDS\n":
            wrong.append("the trace does not hold")
    if other == "UNSAT":
        both = text + "\n---\n" + ours.partition("\n")[2]
        if said(REFUTE, ["--check", *kind], both) != "VERIFIED\n":
            wrong.append("the certificate is not verified")
        if check_claims.answer(both.encode(), finite)[0] != "VERIFIED":
            wrong.append("the certificate is not verified by check_claims.py")
    return text, finite, (one, other), wrong


def main(words):
    count, seed = [int(word) for word in words + ["5000", "1"][len(words):]]
    for crate, word in (("black_main", "solve"), ("black_refute", "--finite")):
        if subprocess.run([TOP + "/build", crate, word], stdin=subprocess.DEVNULL).returncode != 0:
            return 125
    answers, failed = collections.Counter(), 0
    with concurrent.futures.ThreadPoolExecutor(4) as pool:
        for text, finite, pair, wrong in pool.map(lambda number: compared(number, seed), range(count)):
            answers[pair] += 1
            failed += bool(wrong)
            if wrong:
                print("%s%s: %s" % (text, " (finite)" * finite, ", ".join(wrong)), flush=True)
    for (one, other), times in answers.most_common():
        print("%6d  solve %s, refute %s" % (times, one, other))
    print("%d formulas, %d wrong" % (count, failed))
    return int(failed > 0)


if __name__ == "__main__":
    sys.exit(main(sys.argv[1:]))
