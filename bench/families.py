#!/usr/bin/env python3
"""Families of formulas that grow with a size.

    families.py                  the names, one a line
    families.py NAME SIZE        the formula of a family, of a size from 1 on; `period`, `deadlines`, `broken_lift` and `broken_buffer`
                                 begin with 2, `clocks` and `clash` end with 10
    families.py --write FOLDER   the fixed set: a file for each row of SET, with `.finite.` in the name where it is asked
                                 over finite traces
    families.py --refuted FOLDER the same for each row of REFUTED: formulas that no trace satisfies, for `black-refute`
"""
import os
import signal
import sys


def all_of(parts):
    return " & ".join("(%s)" % part for part in parts)


def some_of(parts):
    return " | ".join("(%s)" % part for part in parts)


def times(n, operator, formula):
    """The operator n times over."""
    return "%s (%s)" % ((operator + " ") * n, formula)


def chain(n, join, operator, formula):
    """The formula now, and joined with it n times over at the operator's place."""
    text = formula
    for _ in range(n):
        text = "%s %s %s (%s)" % (formula, join, operator, text)
    return text


def ring(n):
    """A token goes round a ring of n letters, for ever."""
    parts = ["p0"]
    parts += ["G (p%d -> X p%d)" % (i, (i + 1) % n) for i in range(n)]
    parts += ["G F p%d" % i for i in range(n)]
    parts += ["G !(p%d & p%d)" % (i, j) for i in range(n) for j in range(i + 1, n)]
    return " & ".join(parts)


def counting(n):
    """n bits, all of them false at first, that count up at each step."""
    parts = ["!b%d" % i for i in range(n)] + ["G (b0 <-> X !b0)"]
    for i in range(1, n):
        low = " & ".join("b%d" % j for j in range(i))
        parts.append("G ((%s) -> (b%d <-> X !b%d))" % (low, i, i))
        parts.append("G (!(%s) -> (b%d <-> X b%d))" % (low, i, i))
    return parts


def counter(n):
    """The bits come to all ones."""
    return all_of(counting(n) + ["F (%s)" % " & ".join("b%d" % i for i in range(n))])


def stuck(n):
    """The bits never come to all ones, which they do."""
    return all_of(counting(n) + ["G !(%s)" % " & ".join("b%d" % i for i in range(n))])


def period(n):
    """Four bits that count, and a letter that comes back after n steps exactly, for ever."""
    return all_of(counting(4) + ["q", "G (q -> %s)" % times(n, "X", "q"), "G (q -> X (%s))" % chain(n - 2, "&", "X", "!q")])


def responses(n):
    """n requests that recur are answered."""
    return all_of(["G (r%d -> F g%d)" % (i, i) for i in range(n)] + ["G F r%d" % i for i in range(n)])


def exclusive(n):
    """n requests that recur are answered, one at a time, and an answer needs a request."""
    parts = ["G (r%d -> F g%d)" % (i, i) for i in range(n)] + ["G (g%d -> O r%d)" % (i, i) for i in range(n)]
    parts += ["G !(g%d & g%d)" % (i, j) for i in range(n) for j in range(i + 1, n)]
    return all_of(parts + ["G F r%d" % i for i in range(n)])


def arbiter(n):
    """n clients: a request stays up to its grant, a grant needs one, grants are alone, and each client asks after its grant."""
    parts = ["G (r%d -> (r%d U g%d))" % (i, i, i) for i in range(n)] + ["G (g%d -> r%d)" % (i, i) for i in range(n)]
    parts += ["G !(g%d & g%d)" % (i, j) for i in range(n) for j in range(i + 1, n)]
    parts += ["G (g%d -> X (!g%d U r%d))" % (i, i, i) for i in range(n)] + ["G (g%d -> X !r%d)" % (i, i) for i in range(n)]
    return all_of(parts + ["G F g%d" % i for i in range(n)])


def buffer(n):
    """n places that pass on what came in at the first; what goes out came in, and each comes out in the end."""
    parts = ["G (f%d -> (f%d W (f%d & !f%d)))" % (i, i, i + 1, i) for i in range(n - 1)]
    parts += ["G ((f%d & Y !f%d) -> Y f%d)" % (i + 1, i + 1, i) for i in range(n - 1)]
    parts += ["G !(f%d & Y !f%d & X !f%d)" % (i, i, i) for i in range(n)]
    return all_of(["!f%d" % i for i in range(n)] + parts + ["G F f0", "G F f%d" % (n - 1), "G F !f%d" % (n - 1)])


def starved(n):
    """n requests, one of which is never answered once it has come."""
    parts = ["G (r%d -> F g%d)" % (i, i) for i in range(n)]
    return all_of(parts + ["G F r0", "G (!g0 | Y !r0) & G (r0 -> X G !g0)"])


def sinces(n):
    parts = ["G (q%d <-> (q%d S p%d))" % (i, (i + 1) % n, i) for i in range(n)]
    return all_of(parts + ["F G (%s)" % " & ".join("!p%d" % i for i in range(n))])


def yesterdays(n):
    return "F (" + " & ".join("%s p%d" % ("Y " * i, i) for i in range(1, n + 1)) + ") & G !(p1 & p2)"


def history(n):
    """Letters that came one after the other, each once, and a state that remembers all of them twice over."""
    seen = "p0"
    for i in range(1, n):
        seen = "(p%d & Y O (%s))" % (i, seen)
    parts = ["G (p%d -> Y H !p%d)" % (i, i) for i in range(n)] + ["F (%s)" % seen]
    return all_of(parts + ["G (p%d -> Y Y (%s))" % (i, chain(2 * n, "|", "Y", "p%d" % (i - 1))) for i in range(1, n)])


def alternation(n):
    """n letters that alternate with a common one, as the past tells."""
    parts = ["G (a%d -> Z (!a%d S (b & !a%d) | H !a%d))" % (i, i, i, i) for i in range(n)]
    parts += ["G !(a%d & a%d)" % (i, j) for i in range(n) for j in range(i + 1, n)]
    parts += ["G (b -> Z (!b S (%s) | H !b))" % some_of("a%d" % i for i in range(n))]
    return all_of(parts + ["G F a%d" % i for i in range(n)] + ["G !(b & (%s))" % some_of("a%d" % i for i in range(n))])


def declare(n):
    """A process of n tasks over finite traces: chains of response and precedence, and no two at once."""
    parts = ["G (t%d -> F t%d)" % (i, i + 1) for i in range(n - 1)]
    parts += ["(!t%d W t%d)" % (i + 1, i) for i in range(n - 1)]
    parts += ["G (t%d -> wX G !t%d)" % (i, i) for i in range(n)]
    parts += ["G !(t%d & t%d)" % (i, j) for i in range(n) for j in range(i + 1, n)]
    return all_of(parts + ["F t0", "F (t%d & X F t0)" % (n - 1)])


def conflict(n):
    """n letters recur, and from some point on one of them is false; each stays once it came."""
    parts = ["G F p%d" % i for i in range(n)] + ["F G (%s)" % " | ".join("!p%d" % i for i in range(n))]
    return all_of(parts + ["G (p%d -> X G p%d)" % (i, i) for i in range(n)])


def untils(n):
    return " U ".join("p%d" % i for i in range(n)) + " & G !p%d" % (n - 1)


def pigeons(n):
    """n + 1 letters, each true once in the first n states, no two at once."""
    parts = ["(%s)" % some_of(times(k, "X", "p%d" % i) for k in range(n)) for i in range(n + 1)]
    return all_of(parts + ["G !(p%d & p%d)" % (i, j) for i in range(n + 1) for j in range(i + 1, n + 1)])


def deadlines(n):
    """Requests every n steps, answers within n that are at least two steps apart from each other."""
    parts = ["r", "G (r -> %s)" % times(n, "X", "r"), "G (r -> X (%s))" % chain(n - 1, "|", "X", "g")]
    parts += ["G (g -> X (!g & X !g))", "G (g -> Y (%s))" % chain(n - 1, "|", "Y", "r")]
    return all_of(parts + ["G (r -> X (%s))" % chain(n - 2, "&", "X", "!r")])


def broken_lift(n):
    """A lift of n floors with doors and buttons, whose door never opens at the top, where somebody calls again and again."""
    top = n - 1
    parts = ["(%s)" % some_of("f%d" % i for i in range(n)), "G (%s)" % some_of("f%d" % i for i in range(n))]
    parts += ["G !(f%d & f%d)" % (i, j) for i in range(n) for j in range(i + 1, n)]
    parts += ["G (f%d -> X (%s))" % (i, some_of("f%d" % j for j in range(max(0, i - 1), min(n, i + 2)))) for i in range(n)]
    parts += ["G ((f%d & open) -> X f%d)" % (i, i) for i in range(n)]
    parts += ["G (b%d -> (b%d W (f%d & open)))" % (i, i, i) for i in range(n)]
    parts += ["G (b%d -> F (f%d & open))" % (i, i) for i in range(n)] + ["G ((b%d & Y !b%d) -> !open)" % (i, i) for i in range(n)]
    return all_of(parts + ["G (f%d -> !open)" % top, "G F b%d" % top, "f0", "!open"])


def broken_arbiter(n):
    """The arbiter of n clients, where the last one is granted only right behind a grant of its own."""
    return all_of([arbiter(n), "G (g%d -> Y g%d)" % (n - 1, n - 1)])


def broken_buffer(n):
    """The buffer of n places, from 2 on, where what is in the last one was not in the one before it two steps ago."""
    return all_of([buffer(n), "G (f%d -> Y Y !f%d)" % (n - 1, n - 2)])


PERIODS = (2, 3, 5, 7, 11, 13, 17, 19, 23, 29)


def clock(name, period):
    """A letter that comes back after so many steps exactly, from 2 on, for ever."""
    between = chain(period - 2, "&", "X", "!%s" % name)
    return all_of([name, "G (%s -> %s)" % (name, times(period, "X", name)), "G (%s -> X (%s))" % (name, between)])


def clocks(n):
    """n clocks, 10 at most, with coprime periods, beside a letter that recurs and that is false from some point on."""
    return all_of([clock("c%d" % i, PERIODS[i]) for i in range(n)] + ["G F a", "F G !a"])


def unrelated(n):
    """n rings of 3, 4, .. letters that share no letter, and a small one that conflicts."""
    rings = [ring(i + 3).replace("p", "q%dx" % i) for i in range(n)]
    return all_of(rings + [ring(3), "G !p2"])


def beside(n):
    """n requests that recur are answered, beside a letter that recurs and that is false from some point on."""
    return all_of([responses(n), "G F a", "F G !a"])


def clash(n):
    """n clocks, 10 at most, which a trace with an end can't have."""
    return all_of([clock("c%d" % i, PERIODS[i]) for i in range(n)])


def tight(n):
    """An answer comes within n steps, and once it does not."""
    return "G (p -> (%s)) & F (p & (%s))" % (chain(n, "|", "X", "s"), chain(n, "&", "X", "!s"))


FAMILIES = {f.__name__: f for f in (
    ring, counter, stuck, period, responses, exclusive, arbiter, buffer, starved, sinces, yesterdays, history,
    alternation, declare, conflict, untils, pigeons, deadlines, broken_lift, broken_arbiter, broken_buffer, clocks,
    unrelated, beside, clash, tight)}

SET = [
    ("ring", 8), ("ring", 16), ("ring", 32), ("counter", 4), ("counter", 5), ("stuck", 3), ("stuck", 4), ("stuck", 5),
    ("period", 12), ("period", 24), ("responses", 16), ("responses", 64), ("exclusive", 4), ("exclusive", 8),
    ("arbiter", 4), ("arbiter", 6), ("arbiter", 8), ("buffer", 6), ("buffer", 12), ("buffer", 20), ("starved", 1),
    ("starved", 2), ("starved", 3), ("sinces", 16), ("sinces", 64), ("yesterdays", 8), ("yesterdays", 16),
    ("yesterdays", 24), ("history", 3), ("history", 4), ("history", 5), ("alternation", 3), ("alternation", 4),
    ("alternation", 5), ("declare.finite", 6), ("declare.finite", 10), ("declare.finite", 14), ("conflict", 4),
    ("conflict", 5), ("conflict", 6), ("untils", 4), ("untils", 6), ("untils", 8), ("pigeons", 4), ("pigeons", 5),
    ("pigeons", 6), ("deadlines", 5), ("deadlines", 20)]


REFUTED = [
    ("stuck", 4), ("stuck", 5), ("stuck", 6), ("starved", 2), ("starved", 4), ("starved", 6), ("declare.finite", 12),
    ("declare.finite", 24), ("declare.finite", 32), ("conflict", 4), ("conflict", 6), ("conflict", 8), ("untils", 6),
    ("untils", 12), ("pigeons", 4), ("pigeons", 5), ("pigeons", 6), ("broken_lift", 3), ("broken_lift", 4),
    ("broken_lift", 6), ("broken_lift", 8), ("broken_arbiter", 2), ("broken_arbiter", 4), ("broken_arbiter", 8),
    ("broken_buffer", 3), ("broken_buffer", 5), ("broken_buffer", 8), ("clocks", 3), ("clocks", 5), ("clocks", 8),
    ("unrelated", 1), ("unrelated", 3), ("unrelated", 5), ("beside", 2), ("beside", 4), ("beside", 8), ("clash.finite", 3),
    ("clash.finite", 5), ("clash.finite", 8), ("tight", 50), ("tight", 200)]

LEAST = {"period": 2, "deadlines": 2, "broken_lift": 2, "broken_buffer": 2}
MOST = {"clocks": 10, "clash": 10}


def is_size(name, size):
    return size.isdecimal() and LEAST.get(name, 1) <= int(size) <= MOST.get(name, int(size))


def write_set(rows, folder):
    os.makedirs(folder, exist_ok=True)
    for name, size in rows:
        file = name.replace(".", "-%d." % size) + "." if "." in name else "%s-%d" % (name, size)
        with open("%s/%s" % (folder, file), "w") as out:
            out.write(FAMILIES[name.split(".")[0]](size))


def main(words):
    if not words:
        print("\n".join(FAMILIES))
    elif len(words) == 2 and words[0] in ("--write", "--refuted"):
        try:
            write_set(SET if words[0] == "--write" else REFUTED, words[1])
        except OSError as error:
            sys.exit("families.py: %s" % error)
    elif len(words) == 2 and words[0] in FAMILIES and is_size(words[0], words[1]):
        print(FAMILIES[words[0]](int(words[1])))
    else:
        print(__doc__, file=sys.stderr)
        return 2
    return 0


if __name__ == "__main__":
    signal.signal(signal.SIGPIPE, signal.SIG_DFL)
    sys.exit(main(sys.argv[1:]))
