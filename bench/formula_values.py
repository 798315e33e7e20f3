"""Formulas as examples/check_certificate.py reads them, printed, and their values at the positions of a trace."""
import os
import sys

sys.path.insert(0, os.path.join(os.path.dirname(os.path.abspath(__file__)), "..", "examples"))
from check_certificate import RANKS, UNARY, read  # noqa: E402, F401

# Formulas: lists of (word, numbers), each behind its operands.

def arity(word):
    return 2 if word in RANKS else 1 if word in UNARY else 0


def parts(done):
    """The operator, and its operands as lists."""
    ends, starts = [], []
    for at, (word, _) in enumerate(done):
        count = arity(word)
        first = starts[len(starts) - count] if count else at
        del starts[len(starts) - count:]
        starts.append(first)
        ends.append(first)
    operands, at = [], len(done) - 1
    for _ in range(arity(done[-1][0])):
        operands.insert(0, done[ends[at - 1]:at])
        at = ends[at - 1]
    return done[-1], operands


def printed(done):
    stack = []
    for word, numbers in done:
        if word in RANKS:
            right, left = stack.pop(), stack.pop()
            stack.append("(%s %s %s)" % (left, word, right))
        elif word == "!":
            stack.append("!" + stack.pop())
        elif word in UNARY:
            stack.append("%s%s %s" % (word, "[%s]" % ",".join(map(str, numbers)) if numbers else "", stack.pop()))
        else:
            stack.append(word)
    return stack[0]


def bare(text):
    """A printed formula without the parentheses around the whole."""
    return text[1:-1] if text[0] == "(" else text


def nodes(done):
    return sum(max([1] + numbers) for _, numbers in done)


def letters_of(done):
    return {word for word, _ in done if not arity(word) and word not in ("true", "false")}


def joined(lists):
    """The lists one behind the other by `&`, and `true` where there is none."""
    return sum(lists, []) + [("&", [])] * (len(lists) - 1) if lists else [("true", [])]


# Traces: the values of a formula at the positions of a trace whose loop stands there often enough for what looks back.

def looks_back(done):
    stack = []
    for word, numbers in done:
        count = arity(word)
        below = max(stack[len(stack) - count:] or [0])
        del stack[len(stack) - count:]
        stack.append(below + (max([1] + numbers) if word in "YZOHST" else 0))
    return stack[0]


def states_of(trace):
    return trace["states"] if trace["kind"] == "finite" else trace["stem"] + trace["loop"]


def values(done, trace):
    """Whether the formula holds at each position."""
    loop = trace.get("loop", [])
    states = states_of(trace) + loop * looks_back(done)
    size = len(states)
    places = range(size)
    after = [i + 1 for i in places[:-1]] + [size - len(loop)]  # that of the last is `size` where nothing follows it

    def at(row, i, steps, beyond):  # the value so many steps on or back, or where there is nothing
        for _ in range(abs(steps)):
            i = size if i == size else after[i] if steps > 0 else i - 1 if i > 0 else size
        return beyond if i == size else row[i]

    def until(a, b, order, step):  # b now, or a now and the same a step on
        row = [False] * (size + 1)
        for _ in range(2):
            for i in order:
                row[i] = b[i] or a[i] and at(row, i, step, False)
        return row[:size]

    stack = []
    for word, numbers in done:
        count = arity(word)
        a, b = (stack[len(stack) - count:] + [None, None])[:2]
        del stack[len(stack) - count:]
        all_true, window = [True] * size, range(numbers[0], numbers[-1] + 1) if numbers else []
        sign = -1 if word in "YZOHST" else 1
        order = places if sign < 0 else places[::-1]
        negated = [[not v for v in row or []] for row in (a, b)]
        if not count:
            row = [word == "true" or word in state for state in states]
        elif numbers:
            one, beyond = (any, False) if word in "XYFO" else (all, True)
            row = [one([at(a, i, sign * n, beyond) for n in window]) for i in places]
        elif word in ("X", "Y", "wX", "Z"):
            row = [at(a, i, sign, word in ("wX", "Z")) for i in places]
        elif word in "FO":
            row = until(all_true, a, order, sign)
        elif word in "GH":
            row = [not v for v in until(all_true, negated[0], order, sign)]
        elif word in "US":
            row = until(a, b, order, sign)
        elif word in "RT":
            row = [not v for v in until(*negated, order, sign)]
        elif word == "W":
            row = [not v for v in until(negated[1], [not (p or q) for p, q in zip(a, b)], order, sign)]
        elif word == "M":
            row = until(b, [p and q for p, q in zip(a, b)], order, sign)
        else:
            pick = {"!": lambda p, q: not p, "&": lambda p, q: p and q, "|": lambda p, q: p or q,
                    "->": lambda p, q: not p or q, "<->": lambda p, q: p == q}[word]
            row = [pick(p, q) for p, q in zip(a, b or a)]
        stack.append(row)
    return stack[0]


def column_of(position, trace):
    size, loop = len(states_of(trace)), trace.get("loop")
    return position if position < size else size - len(loop) + (position - size) % len(loop)
