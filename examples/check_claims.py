#!/usr/bin/env python3
"""Checks a certificate of claims by docs/CERTIFICATES.md and the grammar of docs/FORMATS.md alone: nothing is shared with `black-refute`.

    check_claims.py [--finite] < INPUT

The input, the line that is printed and the status are those of `black-refute --check`. Formulas are read as check_certificate.py does.
"""
import os.path
import re
import sys

from check_certificate import GATES, LINE, LINE_BEGUN, Refused, closure_of, is_step, pattern, read, up_to

# The text. A form is two regular expressions: for a whole line, and for as much of one as a text may begin with.

HEADERS = [b"ltlinv 1 infinite\n", b"ltlinv 1 finite\n"]


def form(word, whole, begun, **counts):
    """The form of a word and what stands behind it."""
    opened = "".join("(?:" + letter for letter in word) + "(?:" + begun + ")?" + ")?" * len(word)
    return pattern(word + whole + "\n", **counts), pattern(opened, **counts)


def with_targets(word, count):
    return form(word, "(?:%(n)s){%(most)d}", "(?:%(n)s){%(most)d}|(?:%(n)s){0,%(less)d} ?", most=count, less=count - 1)


EVENTUALITY = "(?:0|%s)" % up_to(2 ** 32 - 1)
LAYER, CLAIM = form("layer ", EVENTUALITY, EVENTUALITY), form("c ", "(?:%(l)s )*0", "(?:%(l)s )*(?:%(l)s|-|0)?")
CLOSE, A_LINE = with_targets("close", 1), (LINE, LINE_BEGUN)


class Layer:
    def __init__(self, eventuality):
        self.eventuality, self.claims = eventuality, []


class Text:
    """A text that is gone through line by line: what may come is a form for some first bytes, and one for all others."""

    def __init__(self, text):
        self.text, self.at, self.layers, self.lines, self.close = text, 0, [], [], None
        self.header = next((header for header in HEADERS if text.startswith(header)), None)
        if not self.header:
            self.refuse(max(len(os.path.commonprefix([text[:len(header)], header])) for header in HEADERS))
        self.at = len(self.header)
        while self.close is None:
            self.close = self.layer() if self.text[self.at:self.at + 1] == b"l" and not self.lines else self.last_line()
        if self.at < len(text):
            self.refuse(self.at)

    def refuse(self, byte):
        raise Refused("certificate fault at byte %d" % byte, 3)

    def take(self, others, **forms):
        """The first byte of the next line, and its numbers."""
        first = self.text[self.at:self.at + 1]
        whole, begun = forms.get(first.decode("latin-1"), others)
        found = whole.match(self.text, self.at)
        if not found:
            self.refuse(begun.match(self.text, self.at).end())
        self.at = found.end()
        return first, [int(number) for number in re.findall(rb"-?[0-9]+", found[0])]

    def last_line(self):
        first, numbers = self.take(A_LINE, c=CLOSE)
        if first == b"c":
            return numbers[0]
        self.lines.append(hinted(numbers))

    def layer(self):
        layer = Layer(self.take(LAYER)[1][0])
        self.layers.append(layer)
        while not layer.claims or self.text[self.at:self.at + 1] == b"c":
            layer.claims.append(self.take(CLAIM)[1][:-1])
        count = len(layer.claims)
        layer.base_lines, layer.base_targets = self.lines_to("base", 2 * count if layer.eventuality else count)
        layer.step_lines, layer.step_targets = self.lines_to("step", count)

    def lines_to(self, word, count):
        """Lines, and the numbers behind the word."""
        lines, last = [], with_targets(word, count)
        while True:
            first, numbers = self.take(A_LINE, **{word[0]: last})
            if first.decode() == word[0]:
                return lines, numbers
            lines.append(hinted(numbers))


def hinted(numbers):
    """The literals and the hints of a line."""
    split = numbers.index(0)
    return numbers[:split], numbers[split + 1:-1]


# The list of a step.

def list_of(entries, root):
    w = len(entries)

    def gates(start):
        return [clause for t, (word, *operands) in enumerate(entries, start + 1) if word in GATES
                for clause in GATES[word](t, *[start + 1 + o for o in (operands + [0, 0])[:2]], t + 1)]

    after, first, last = 2 * w + 1, 2 * w + 2, 2 * w + 3
    nexts, pasts = ([t for t, entry in enumerate(entries) if entry[0] in words] for words in (("X", "wX"), ("Y", "Z")))
    kept = [(t + 1, w + 1 + entries[t][1]) for t in nexts] + [(w + t + 1, 1 + entries[t][1]) for t in pasts]
    clauses = gates(0) + gates(w) + [clause for p, s in kept for clause in ((-after, -p, s), (-after, p, -s))]
    clauses += [(-first, root + 1)] + [(-first, -t - 1 if entries[t][0] == "Y" else t + 1) for t in pasts]
    return clauses + [(-last, -t - 1) for t in nexts if entries[t][0] == "X"]


# The verdict.

class Rejected(Exception):
    """What fails first."""


class Judge:
    """The clauses and the lines that may be named so far, numbered from 1."""

    def __init__(self, entries, root, finite):
        self.width, self.finite, self.clauses, self.lines = len(entries), finite, list_of(entries, root), []
        self.promises = [(entry[2] + 1, t + 2) for t, entry in enumerate(entries) if entry[0] == "U" and not finite]

    def named(self, hint):
        numbered = self.lines if hint < 0 else self.clauses
        return set(numbered[abs(hint) - 1]) if abs(hint) <= len(numbered) else None

    def take_lines(self, lines, what):
        for k, (literals, hints) in enumerate(lines, 1):
            if not is_step(literals, hints, self.named, 2 * self.width + 3):
                raise Rejected("%s %d" % (what, k))
            self.lines.append(set(literals))

    def is_target(self, number, literals):
        return number <= len(self.lines) and self.lines[number - 1] <= set(literals)

    def take_layer(self, layer, name):
        after, last = 2 * self.width + 1, 2 * self.width + 3
        if layer.eventuality > len(self.promises):
            raise Rejected("%s eventuality" % name)
        bases = [[-last if self.finite else -after]]
        if layer.eventuality:
            right, request = self.promises[layer.eventuality - 1]
            bases = [[-after, self.width + request], [-after, -self.width - right]]
        for k, claim in enumerate(layer.claims, 1):
            if any(abs(literal) > self.width for literal in claim):
                raise Rejected("%s claim %d" % (name, k))
        self.take_lines(layer.base_lines, "%s base line" % name)
        for k, claim in enumerate(layer.claims):
            targets = layer.base_targets[k * len(bases):]
            if not all(self.is_target(target, claim + base) for target, base in zip(targets, bases)):
                raise Rejected("%s base target %d" % (name, k + 1))
        self.clauses += [[literal + (self.width if literal > 0 else -self.width) for literal in claim] for claim in layer.claims]
        self.take_lines(layer.step_lines, "%s step line" % name)
        for k, (claim, target) in enumerate(zip(layer.claims, layer.step_targets), 1):
            if not self.is_target(target, claim + [-after]):
                raise Rejected("%s step target %d" % (name, k))
        self.clauses += layer.claims


def verdict(done, finite, text):
    text = Text(text)
    if (b" finite" in text.header) != finite:
        return "REJECTED kind"
    judge = Judge(*closure_of(done), finite)
    try:
        for n, layer in enumerate(text.layers, 1):
            judge.take_layer(layer, "layer %d" % n)
        judge.take_lines(text.lines, "line")
        if not judge.is_target(text.close, [-2 * judge.width - 2]):
            raise Rejected("target")
    except Rejected as reason:
        return "REJECTED %s" % reason
    return "VERIFIED"


def answer(data, finite):
    """The line and the status for an input of two parts."""
    try:
        separator = re.search(rb"(?:\A|\n)---\r?(?:\n|\Z)", data)
        if not separator:
            raise Refused("no separator line", 3)
        line = verdict(read(data[:separator.start()]), finite, data[separator.end():])
        return line, int(line != "VERIFIED")
    except Refused as refused:
        return refused.args


if __name__ == "__main__":
    if sys.argv[1:] not in ([], ["--finite"]):
        sys.exit(__doc__)
    said, status = answer(sys.stdin.buffer.read(), len(sys.argv) == 2)
    print(said)
    sys.exit(status)
