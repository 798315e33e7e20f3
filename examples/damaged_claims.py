#!/usr/bin/env python3
"""Compares what `black-refute --check` prints, and its status, with what check_claims.py does, on inputs of three sorts.

    damaged_claims.py PROGRAM [COUNT]     names of many scripts, inputs of every refusal, and so many damaged certificates (2000)

The inputs are the same ones each time. Each that the two answer otherwise is printed, and then the status is 1.
"""
import random
import re
import sys

import check_claims
from damaged_certificates import INPUTS, NAMES, Count, run, with_bytes, with_formula, with_number

FORMULAS = [("wX false", False), ("false", False), ("G X true", True), ("F p & G !p", False), ("G F p & G !p", False), ("G F (p & Y q) & F G !q", False),
            ("p & G (p -> X p) & F !p", True), ("G (p -> Y q) & F p & G !q", False), ("p U q & G !q", True), ("G X p", True),
            ("Z Req S Untilx & H !Untilx & Z Z Xp", False), ("O[1,2] p & G !p", True), ("(a W b) M c & G !c", False),
            ("G[0,2] p & X[2] !p", False), ("X Y (p T q) & !q", True), ("G (a -> X b) & G (b -> X !a) & G F a & G (b -> X a)", False),
            ("G e\u0301 & \u4e2d & F !e\u0301", False), ("\u03bb R \u0645\u0631\u062d & !\u0645\u0631\u062d", True)]
START = b"ltlinv 1 infinite\n"
HEADS = [b"", b"ltlinv 2 infinite\n", b"ltlinv 1 finite \n", START, START + b"layer 01\n", START + b"layer 4294967295\nc 1 0\n", START + b"layer 4294967296\n",
         START + b"layer 0\nbase 1\n", START + b"layer 0\nc 1 0\n1 0 0\nc 2 0\n", START + b"layer 1\nc 1 0\nbase 1\nstep 1\n", START + b"layer 0\nc 1 0\nbase 1 1\n",
         START + b"1 0 0\nlayer 0\n", START + b"16777217 0 0\n", START + b"16777216 0 0\nclose 1\n", START + b"0 18446744073709551616 0\n", START + b"0 18446744073709551615 0\nclose 1\n",
         START + b"close 0\n", START + b"close 1 2\n", START + b"-1 0 2 1 0\nclose 1", START + b"close 1\n\n", START + b"d 1\n", START + b"layer 0\nc 0\nbase 1\nstep 1\nclose 1\n",
         START + b"layer 0\nc 1 -1 1 0\nbase 1\nstep 1\nclose 1\n", START + b"layer 0\nc 9 0\nbase 1\nstep 1\nclose 1\n", START + b"layer 7\nc 1 0\nbase 1 1\nstep 1\nclose 1\n"]


def certificates(program):
    for formula, finite in FORMULAS:
        printed, status = run([program], ["--cert"] + ["--finite"] * finite, formula.encode())
        if status != 20:
            sys.exit("no certificate of %s" % formula)
        yield formula.encode(), finite, printed.partition(b"\n")[2]


def with_lines(text, draw):
    """Lines swapped, dropped, doubled or moved."""
    first, *lines = text.splitlines(True)
    if not lines:
        return text
    a, b, way = draw.randrange(len(lines)), draw.randrange(len(lines)), draw.randrange(4)
    if way == 0:
        lines[a], lines[b] = lines[b], lines[a]
    elif way == 1:
        del lines[a]
    else:
        lines.insert(b, lines[a] if way == 2 else lines.pop(a))
    return b"".join([first, *lines])


def with_layers(text, draw):
    """Layers swapped, dropped or doubled; or a claim dropped, doubled or shortened, with targets for as many as there are then."""
    layers = [m.span() for m in re.finditer(rb"layer \d+\n(?:c [^\n]*\n)+(?:[-0-9][^\n]*\n)*base [^\n]*\n(?:[-0-9][^\n]*\n)*step [^\n]*\n", text)]
    if not layers:
        return text
    (a, b), (c, d) = draw.choice(layers), draw.choice(layers)
    if draw.randrange(3) == 0:
        return draw.choice([text[:a] + text[b:], text[:b] + text[a:], text[:a] + text[c:d] + text[b:]])
    claims = re.findall(rb"c [^\n]*\n", text[a:b])
    other, way = list(claims), draw.randrange(3)
    k = draw.randrange(len(claims))
    words = claims[k].split()
    if way == 0 and len(claims) > 1:
        del other[k]
    elif way == 1:
        other.append(claims[k])
    elif len(words) > 2:
        del words[draw.randrange(1, len(words) - 1)]
        other[k] = b" ".join(words) + b"\n"
    layer = text[a:b].replace(b"".join(claims), b"".join(other), 1)
    for word in (b"base", b"step"):
        found = re.search(rb"\n" + word + rb"([^\n]*)\n", layer)
        targets = found[1].split()
        each = len(targets) // len(claims)
        targets = (targets + targets[each * k:each * k + each])[:each * len(other)]
        layer = layer[:found.start(1)] + b" " + b" ".join(targets) + layer[found.end(1):]
    return text[:a] + layer + text[b:]


def with_header(text, draw):
    """Another kind, or another eventuality of a layer."""
    if draw.randrange(2):
        return text.replace(*draw.choice([(b"infinite", b"finite"), (b" finite", b" infinite")]), 1)
    layers = list(re.finditer(rb"layer (\d+)\n", text))
    if not layers:
        return text
    found = draw.choice(layers)
    return text[:found.start(1)] + b"%d" % draw.randrange(3) + text[found.end(1):]


def damaged(sets, turn, draw):
    """A formula, whether it is asked about over finite traces, and a text for it."""
    formula, finite, text = sets[turn % len(sets)]
    for _ in range(draw.choice([1, 1, 1, 2])):
        way = draw.randrange(10)
        if way == 0:
            text = with_bytes(text, draw) or text
        elif way == 1:
            formula = with_formula(formula, draw) if draw.randrange(3) else draw.choice(sets)[0]
        elif not re.search(rb"\A\w+ 1 \w+\n[^!]*[1-9][^!]*close \d+\n\Z", text):
            continue
        else:
            text = draw.choice([with_number, with_number, with_lines, with_layers, with_header])(text, draw)
    return formula, finite, text


def main():
    program, turns = sys.argv[1], int(sys.argv[2]) if len(sys.argv) > 2 else 2000
    draw, sorts = random.Random(2000), ["names of claims", "inputs of claims", "damaged claims"]
    names, inputs, claims = [Count(program, sort, "--check", check_claims) for sort in sorts]
    text = run([program], ["--cert"], b"p & !p")[0].partition(b"\n")[2]
    for name in NAMES:
        for other in (name, draw.choice(NAMES), name[:1]):
            names.compare(("%s & !%s\n---\n" % (name, other)).encode() + text)
    for data in INPUTS + [formula + b"\n---\n" + head for formula in (b"false", b"p U q & r") for head in HEADS]:
        inputs.compare(data, False)
        inputs.compare(data, True)
    sets = list(certificates(program))
    for turn in range(turns):
        formula, finite, text = damaged(sets, turn, draw)
        claims.compare(formula + b"\n---\n" + text, finite, by_itself=turn % 100 == 0)
    sys.exit(sum(count.tell() for count in (names, inputs, claims)) > 0)


if __name__ == "__main__":
    main()
