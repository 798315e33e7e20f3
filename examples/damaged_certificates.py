#!/usr/bin/env python3
"""Compares what `black check` prints, and its status, with what check_certificate.py does, on inputs of three sorts.

    damaged_certificates.py PROGRAM [COUNT]     names of many scripts, inputs of every refusal, and so many damaged certificates (2000)

The inputs are the same ones each time. Each that the two answer otherwise is printed, and then the status is 1.
"""
import pathlib
import random
import re
import subprocess
import sys
import unicodedata

import check_certificate

FORMULAS = [("wX false", False), ("false", False), ("G X true", True), ("F p & G !p", False), ("G F p & F G !p", False),
            ("p & G (p -> X p) & F !p", True), ("G (p -> Y q) & F p & G !q", False), ("p U q & G !q", True),
            ("Z Req S Untilx & H !Untilx & Z Z Xp", False), ("O[1,2] p & G !p", True), ("(a W b) M c & G !c", False),
            ("G[0,2] p & X[2] !p", False), ("X Y (p T q) & !q", True), ("a <-> b <-> (a <-> !b)", True),
            ("G e\u0301 & \u4e2d & F !e\u0301", False), ("\u03bb R \u0645\u0631\u062d & !\u0645\u0631\u062d", True)]
NAMES = ["p", "_", "_1", "Req", "Untilx", "Xp", "wXp", "X_", "trueish", "Trues", "Sa", "TT", "w", "U1", "FG", "\u03bb\u03cc\u03b3\u03bf\u03c2",
         "\u4e2d\u6587", "\u6f22", "\u304b\u3099", "\u304c", "e\u0301", "\u00e9", "e", "\u0645\u0631\u062d\u0628\u0627", "\u05e9\u05dc\u05d5\u05dd",
         "\u0928\u092e\u0938\u094d\u0924\u0947", "\u0e2a\u0e27\u0e31\u0e2a\u0e14\u0e35", "\ud55c\uad6d", "\u1112\u1161\u11ab", "\u2118", "\u212e", "\u2160",
         "\ufb01", "a\u00b7b", "\U00010400", "\U0001d44e", "\U00020000", "\u0301e", "1a", "\u0661", "a\u0661", "\u309b", "\u037a",
         "\u00b5", "\u03bc", "a-b", "a.b", "\u2028", "\u00a0", "\U0001f600", "a\u203f", "\u203f", "\ufeffa", "\uff21", "\u01c5", "\u00df", "\u0130"]
INPUTS = [b"", b"p", b"p\n--- \n", b"---", b"---\n", b"\n---", b"p\n---\r\n", b"p\n---\r\r\n", b"p\n---", b"p\r\n---\r", b"p---\n", b"p\n----\n---\nx", b"\n\n---\n",
          b"a" * 1048576 + b"\n---\n", b"a" * 1048577 + b"\n---\n", b"(" * 1048576 + b"\n---\n", b"!" * 16383 + b"p\n---\n", b"!" * 16384 + b"p\n---\n",
          b"!" * 500 + b"(p & !p)\n---\nltlcert 1 infinite 0\n", b"p" + b" <-> p" * 8191 + b"\n---\n", b"X[255] G[0,255] p & Y[0] q" * 2 + b"\n---\n",
          b"(" + b"G[0,255] " * 64 + b"p)\n---\n", b"G[0,255] " * 65 + b"p\n---\n", b"p & \xff\n---\n", b"p & q\xe2\x82\n---\n", b"\xed\xa0\x80\n---\n",
          b"p <- q\n---\n", b"p <\xff\n---\n", b"p - q\n---\n", b"p = q\n---\n", b"X[256] p\n---\n", b"F[3,2] p\n---\n", b"X[01] p\n---\n", b"F[1, 2] p\n---\n", b"X[] p\n---\n",
          b"Xp[1] q\n---\n", b"Z[1] q\n---\n", b"wX[1] q\n---\n", b"F[1] q\n---\n", b"X[1,2] q\n---\n", b"H[255,255] q\n---\n", b"p\x0bq\n---\n", b"p q\n---\n",
          b"p)\n---\n", b"(p\n---\n", b"()\n---\n", b"p U U q\n---\n", b"! \n---\n", b"p & (q | r))\n---\n", b"p ! q\n---\n", b"true True\n---\n", b"G(p)\n---\n"]
HEADS = [b"ltlcert 1 infinite 1000\n", b"ltlcert 2 finite 1000\n", b"ltlcert 1 infinite 1001\n", b"ltlcert 1 infinite 00\n", b"ltlcert 3 finite 0\n",
         b"ltlcert 1 infinite 0\n-0", b"ltlcert 1 infinite 0\n0 0\nclose 1 1\n", b"ltlcert 1 infinite 0\n16777217 0 0\n", b"ltlcert 1 infinite 0\n16777216 0 0\nclose 1 1\n",
         b"ltlcert 1 infinite 0\n0 18446744073709551615 0\nclose 1 1\n", b"ltlcert 1 infinite 0\n0 18446744073709551616 0\n", b"ltlcert 2 infinite 0\nd\n",
         b"ltlcert 2 infinite 0\nd 1 \n", b"ltlcert 1 infinite 0\nd 1\n", b"ltlcert 2 infinite 0\nd 1\nclose 1 1\n", b"ltlcert 1 infinite 0\nclose 1 1\nx", b"ltlcert 1 infinite 0\ncl",
         b"ltlcert 1 infinite 0\nclose 1 1 1\n", b"ltlcert 1 infinite 0\nclose 1\n", b"ltlcert 1 infinite 0\nclose\n", b"ltlcert 1 infinite 0\nclose 1 0\n"]


def run(program, words, data):
    done = subprocess.run([*program, *words], input=data, capture_output=True)
    return done.stdout, done.returncode


def certificates(program):
    """Of each formula its certificate, in both versions."""
    for formula, finite in FORMULAS:
        printed, status = run([program], ["solve", "--cert"] + ["--finite"] * finite, formula.encode())
        if status != 20:
            sys.exit("no certificate of %s" % formula)
        text = printed.partition(b"\n")[2]
        lines = [line for line in text.split(b"\n") if not line.startswith(b"d")]
        yield formula.encode(), finite, [text, b"\n".join(lines).replace(b"ltlcert 2", b"ltlcert 1", 1)]


def with_bytes(text, draw):
    """Bytes changed, cut off, dropped or doubled."""
    a, b = sorted(draw.randrange(len(text) + 1) for _ in range(2))
    if draw.randrange(2):
        return draw.choice([text[:a], text[:a] + text[b:], text[:b] + text[a:], text[:a] + text[a:a + 1] + text[a:]])
    for _ in range(draw.randrange(1, 3)):
        a = draw.randrange(len(text))
        text = text[:a] + bytes([draw.choice(b"0123456789 \n-dc" if draw.randrange(8) else range(256))]) + text[a + 1:]
    return text


def with_number(text, draw):
    """A number of a line, a delete or the close changed."""
    start = text.index(b"\n")
    found = list(re.finditer(rb"-?[1-9][0-9]*", text[start:]))
    at = draw.choice(found)
    number = int(at[0])
    other = draw.choice([number + 1, number - 1, -number, int(draw.choice(found)[0]), draw.randrange(1, 40), 10 * number]) or 1
    return text[:start + at.start()] + b"%d" % other + text[start + at.end():]


def with_lines(text, draw):
    """Lines swapped, dropped, doubled or moved, or a delete put between two."""
    first, *lines, close = text.splitlines(True)
    if not lines:
        return text
    a, b = draw.randrange(len(lines)), draw.randrange(len(lines))
    way = draw.randrange(5)
    if way == 0:
        lines[a], lines[b] = lines[b], lines[a]
    elif way == 1:
        del lines[a]
    elif way == 2:
        lines.insert(b, lines[a])
    elif way == 3:
        lines.insert(b, lines.pop(a))
    else:
        lines.insert(a, b"d%s\n" % b"".join(b" %d" % draw.randrange(1, len(lines) + 2) for _ in range(draw.randrange(1, 4))))
    return b"".join([first, *lines, close])


def with_targets(text, draw):
    """A target changed, too few or too many of them, or another depth with as many as it wants."""
    body, _, close = text.rpartition(b"close ")
    targets, way = close.split(), draw.randrange(4)
    if way == 0:
        targets[draw.randrange(len(targets))] = b"%d" % draw.randrange(1, body.count(b"\n") + 2)
    elif way == 1:
        del targets[draw.randrange(len(targets))]
    else:
        targets.insert(draw.randrange(len(targets) + 1), draw.choice(targets))
    if way == 3 or len(targets) > 2 and way == 1 and draw.randrange(2):
        body = re.sub(rb"\d+", b"%d" % (len(targets) - 2), body[:25].split(b"\n")[0][10:], 1).join([body[:10], b"\n" + body.partition(b"\n")[2]])
    return b"%sclose %s\n" % (body, b" ".join(targets))


def with_header(text, draw):
    """Another version, kind or depth."""
    old, new = draw.choice([(b"infinite", b"finite"), (b" finite", b" infinite"), (b"ltlcert 2", b"ltlcert 1"), (b"ltlcert 1", b"ltlcert 2"), (b"e 1\n", b"e 2\n")])
    return text.replace(old, new, 1)


def with_formula(formula, draw):
    """A word of the formula dropped, doubled or put in place of another one."""
    words = re.findall(r"\w+(?:\[[0-9,]*\])?|\W", formula.decode()) or [""]
    a, b = draw.randrange(len(words)), draw.randrange(len(words))
    words[a] = draw.choice(["", words[a] * 2, words[b], draw.choice("p q X G U R S T & | ! true false wX".split())])
    return "".join(words).encode()


def damaged(sets, turn, draw):
    """A formula, whether it is asked about over finite traces, and a text for it."""
    formula, finite, texts = sets[turn % len(sets)]
    text = draw.choice(texts)
    for _ in range(draw.choice([1, 1, 1, 2])):
        way = draw.randrange(10)
        if way < 2:
            text = with_bytes(text, draw) or text
        elif way < 6:
            text = draw.choice([with_number, with_lines])(text, draw) if re.fullmatch(rb"ltlcert . \w+ \d+\n[^c]*close [^c]*\n", text) else text
        elif way < 8:
            text = with_targets(text, draw) if b"close " in text else text
        elif way == 8:
            formula = with_formula(formula, draw) if draw.randrange(3) else draw.choice(sets)[0]
        else:
            text = with_header(text, draw) if draw.randrange(3) else draw.choice(draw.choice(sets)[2])
    return formula, finite, text


class Count:
    """How many inputs of a sort the program and the checker answer alike."""

    def __init__(self, program, sort, command="check", checker=check_certificate):
        self.program, self.sort, self.command, self.checker = program, sort, command, checker
        self.passed, self.failed, self.answers = 0, 0, {}

    def compare(self, data, finite=False, words=(), by_itself=False):
        kind = ["--finite"] * finite
        said = run([self.program], [self.command, *kind, *words], data)
        if by_itself:
            wanted = run([sys.executable, self.checker.__file__], kind, data)
        else:
            line, status = self.checker.answer(data, finite)
            wanted = (line + "\n").encode(), status
        if said == wanted:
            self.passed += 1
        else:
            self.failed += 1
            print("%s: %r: %s, not %s" % (self.sort, data[:400], said, wanted))
        kind_of_answer = re.sub(rb"[0-9].*", b"", said[0]).decode().strip()
        self.answers[kind_of_answer] = self.answers.get(kind_of_answer, 0) + 1

    def tell(self):
        print("%s: %d passed, %d failed" % (self.sort, self.passed, self.failed))
        return self.failed


def names(program, draw):
    """A letter that has to be false and true, by the certificate of `p & !p`; and one letter that has to be true and another false."""
    count = Count(program, "names")
    text = run([program], ["solve", "--cert"], b"p & !p")[0].partition(b"\n")[2]
    # Characters of Unicode 3.2, so that each version knows them. These four belong to names only since Unicode 15.1.
    known = [chr(c) for c in range(128, 0x30000)
             if unicodedata.ucd_3_2_0.category(chr(c)) not in ("Cn", "Cs", "Co") and chr(c) not in "\u200c\u200d\u30fb\uff65"]
    drawn = ["a" * draw.randrange(2) + "".join(draw.choice(known) for _ in range(draw.randrange(1, 4))) for _ in range(200)]
    for name in NAMES + drawn:
        for other in (name, draw.choice(NAMES), unicodedata.normalize("NFC", name), unicodedata.normalize("NFD", name), name[:1]):
            count.compare(("%s & !%s\n---\n" % (name, other)).encode() + text)
    return count


def inputs(program):
    """Every refusal, and the examples of `check`."""
    count, here = Count(program, "inputs"), pathlib.Path(__file__).parent
    for data in INPUTS + [formula + b"\n---\n" + head for formula in (b"false", b"p U q & r") for head in HEADS]:
        count.compare(data, False, by_itself=True)
        count.compare(data, True)
    for example in sorted(here.glob("*.out")):
        caller, *words = example.read_text().splitlines()[0].split()[1:]
        if caller == "black" and words[:1] == ["check"]:
            count.compare(example.with_suffix(".in").read_bytes(), "--finite" in words, by_itself=True)
    return count


def certificates_damaged(program, draw, turns):
    count, sets = Count(program, "damaged certificates"), list(certificates(program))
    for turn in range(turns):
        formula, finite, text = damaged(sets, turn, draw)
        count.compare(formula + b"\n---\n" + text, finite, ["--workers", str(1 + turn % 4)] if turn % 2 else [])
    return count


def main():
    program, turns = sys.argv[1], int(sys.argv[2]) if len(sys.argv) > 2 else 2000
    counts = [names(program, random.Random(1)), inputs(program), certificates_damaged(program, random.Random(2000), turns)]
    sys.exit(sum(count.tell() for count in counts) > 0)


if __name__ == "__main__":
    main()
