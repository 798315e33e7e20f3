#!/usr/bin/env python3
"""Checks a certificate by docs/CERTIFICATES.md and the grammar of docs/FORMATS.md alone: nothing here is shared with `black`.

    check_certificate.py [--finite] < INPUT

The input, the line that is printed and the status are those of `black check`. The characters of names are those of Python's Unicode:
one that only a later version takes for such is a lexical fault here.
"""
import bisect
import os.path
import re
import sys

LIMIT = 16777216  # the most letters


class Refused(Exception):
    """The line that is printed in place of a verdict, and its status."""


# The formula, from bytes to its operators and letters, each behind its operands.

SPELLED = {"~": "!", "&&": "&", "||": "|", "=>": "->", "<=>": "<->", "True": "true", "False": "false"}
SYMBOL = re.compile(r"<->|<=>|->|=>|&&|\|\||[!~&|()]")
BOUNDS = {words: re.compile(r"\[" + ",".join(["(0|[1-9][0-9]{0,2})"] * count) + r"\]") for words, count in (("XY", 1), ("FGOH", 2))}
UNARY = "! X wX F G Y Z O H".split()
RANKS = {"<->": 1, "->": 2, "|": 3, "&": 4, **dict.fromkeys("URWMST", 5)}  # from the weakest
FROM_THE_RIGHT = (2, 5)


def numbers_at(word, text, at):
    """The numbers of a bounded operator, and where it ends: right behind the word, without numbers, where it is none."""
    for words, form in BOUNDS.items():
        found = form.match(text, at) if len(word) == 1 and word in words else None
        numbers = [int(number) for number in found.groups()] if found else [256]
        if numbers[0] <= numbers[-1] <= 255:
            return numbers, found.end()
    return [], at


def tokens_of(data):
    """The tokens of a text: what it is, the numbers of a bounded operator, and the byte at which it begins."""
    try:
        text, stop = data.decode(), len(data)
    except UnicodeDecodeError as error:
        text, stop = data[:error.start].decode(), -1
    tokens, at, byte = [], 0, 0
    while at < len(text):
        symbol, end = SYMBOL.match(text, at), at + 1
        if symbol:
            end = symbol.end()
        elif text[at].isidentifier():
            while end < len(text) and ("a" + text[end]).isidentifier():
                end += 1
        elif text[at] not in " \t\n\r":
            break
        numbers, end_of_token = numbers_at(text[at:end], text, end)
        if text[at] not in " \t\n\r":
            tokens.append((SPELLED.get(text[at:end], text[at:end]), numbers, byte))
        byte += len(text[at:end_of_token].encode())
        at = end_of_token
    if byte != stop:
        raise Refused("lexical fault at byte %d" % byte, 3)
    return tokens


def applied(tokens, length):
    """The tokens without the parentheses, each behind its operands. A stack holds those whose last operand is still to come."""
    done, waiting, opened, is_operand_wanted = [], [], 0, True

    def apply_down_to(rank):
        while waiting and waiting[-1][0] != "(" and RANKS.get(waiting[-1][0], 6) >= rank:
            done.append(waiting.pop())

    for word, numbers, byte in tokens:
        rank = RANKS.get(word)
        if is_operand_wanted and (word in UNARY or word == "("):
            waiting.append((word, numbers))
            opened += word == "("
        elif is_operand_wanted and not rank and word != ")":
            done.append((word, numbers))
            is_operand_wanted = False
        elif not is_operand_wanted and rank:
            apply_down_to(rank + (rank in FROM_THE_RIGHT))
            waiting.append((word, numbers))
            is_operand_wanted = True
        elif not is_operand_wanted and word == ")" and opened:
            apply_down_to(0)
            waiting.pop()
            opened -= 1
        else:
            raise Refused("grammar fault at byte %d" % byte, 3)
    if is_operand_wanted or opened:
        raise Refused("grammar fault at byte %d" % length, 3)
    apply_down_to(0)
    return done


def read(data):
    if len(data) > 1048576:
        raise Refused("limit text 1048576", 4)
    done = applied(tokens_of(data), len(data))
    nodes = sum(max([1] + numbers) for _, numbers in done)
    if nodes > 16384:
        raise Refused("limit nodes 16384 have %d" % nodes, 4)
    return done


# The normal form and the closure. A formula is a number; the table has its operator and its operands' numbers.

DUAL = {"true": "false", "&": "|", "U": "R", "S": "T", "X": "wX", "Y": "Z"}
DUAL.update({b: a for a, b in DUAL.items()})
REQUEST = {"U": "X", "R": "wX", "S": "Y", "T": "Z"}


def closure_of(done):
    """The entries, each an operator and the places of its operands, and the place of the normal form itself, counted from 0."""
    table, stack = {}, []

    def place(*form):
        number = table.setdefault(form, len(table))
        if form[0] in REQUEST:
            table.setdefault((REQUEST[form[0]], number), len(table))
        return number

    def both(operator, *operands):  # the normal form and that of the negation, of such pairs
        return place(operator, *[yes for yes, _ in operands]), place(DUAL[operator], *[no for _, no in operands])

    def bounded(step, join):
        def normal(c, first, last):
            formula = c
            for count in range(last):
                formula = both(step, formula)
                formula = both(join, c, formula) if count < last - first else formula
            return formula
        return normal

    true, false = both("true"), both("false")
    shapes = {
        "!": lambda a: a[::-1], "->": lambda a, b: both("|", a[::-1], b),
        "<->": lambda a, b: tuple(place("|", place("&", a[0], b[k]), place("&", a[1], b[1 - k])) for k in (0, 1)),
        "F": lambda a: both("U", true, a), "G": lambda a: both("R", false, a),
        "O": lambda a: both("S", true, a), "H": lambda a: both("T", false, a),
        "W": lambda a, b: both("R", b, both("|", a, b)), "M": lambda a, b: both("U", b, both("&", a, b))}
    windows = {"X": bounded("X", None), "F": bounded("X", "|"), "G": bounded("wX", "&"),
               "Y": bounded("Y", None), "O": bounded("Y", "|"), "H": bounded("Z", "&")}
    for word, numbers in done:
        count = 2 if word in RANKS else 1 if word in UNARY else 0
        operands = stack[len(stack) - count:]
        del stack[len(stack) - count:]
        if numbers:
            stack.append(windows[word](operands[0], numbers[0], numbers[-1]))
        elif word in shapes or word in DUAL:
            stack.append(shapes[word](*operands) if word in shapes else both(word, *operands))
        else:
            letter = place("letter " + word)
            stack.append((letter, place("!", letter)))
    forms, entries, waiting, root = list(table), {}, [(stack[0][0], False)], stack[0][0]
    while waiting:
        form, is_ready = waiting.pop()
        operator, *operands = forms[form]
        if is_ready:
            entries.setdefault(form, len(entries))
            if operator in REQUEST:
                entries.setdefault(table[REQUEST[operator], form], len(entries))
        elif form not in entries:
            waiting += [(form, True)] + [(operand, False) for operand in reversed(operands)]
    return [(forms[form][0], *[entries[operand] for operand in forms[form][1:]]) for form in entries], entries[root]


# The letters and the clause list. A row stands for a clause at each step i, or at each i and each earlier l. Its literals are numbers
# that say from where a letter is counted, and by how much.

FIRST, NOW, BEFORE, EARLIER, PAIR, PAIR_BEFORE = range(6)


def letters_from(base, start, count):
    return [1 + base + 6 * offset for offset in range(start, start + count)]


GATES = {"true": lambda g, *_: [(g,)], "false": lambda g, *_: [(-g,)], "!": lambda g, a, *_: [(g, a), (-g, -a)],
         "&": lambda g, a, b, _: [(-g, a), (-g, b), (g, -a, -b)], "|": lambda g, a, b, _: [(g, -a), (g, -b), (-g, a, b)],
         **dict.fromkeys("US", lambda g, a, b, r: [(g, -b), (g, -a, -r), (-g, b, a), (-g, b, r)]),
         **dict.fromkeys("RT", lambda g, a, b, r: [(-g, b), (-g, a, r), (g, -b, -a), (g, -b, -r)])}


class ClauseList:
    def __init__(self, entries, root, finite, depth):
        def places(*words):
            return [t for t, entry in enumerate(entries) if entry[0] in words]

        nexts, pasts, promises = places("X", "wX"), places("Y", "Z"), [] if finite else places("U")
        carry, start = nexts + [entries[t][1] for t in pasts], 2 if finite else 4
        w, c, e = len(entries), len(carry), len(promises)
        self.own, self.pair = start + w + e, start // 2 + c + 2 * e
        here, accepted, empty, repeated = letters_from(NOW, 0, 4)
        value, before, earlier = [letters_from(base, start, w + 1) for base in (NOW, BEFORE, EARLIER)]
        seen, seen_earlier = [letters_from(base, start + w, e) for base in (NOW, EARLIER)]
        equal, loop, *differs = letters_from(PAIR, 0, 2 + c) if not finite else letters_from(PAIR, 0, 1) + letters_from(PAIR, 0, 1 + c)
        fulfilled, fulfilled_before = [letters_from(base, 2 + c, e) for base in (PAIR, PAIR_BEFORE)]
        new, [first], [here_before] = letters_from(PAIR, 2 + c + e, e), letters_from(FIRST, 0, 1), letters_from(BEFORE, 0, 1)
        [repeated_earlier] = letters_from(EARLIER, 3, 1)
        rights, requests = [value[entries[t][2]] for t in promises], [value[t + 1] for t in promises]

        gates = [row for t, (word, *operands) in enumerate(entries) if word in GATES
                 for row in GATES[word](value[t], *[value[o] for o in (operands + [t, t])[:2]], value[t + 1])]
        kept = [(before[t], value[entries[t][1]]) for t in nexts] + [(value[t], before[entries[t][1]]) for t in pasts]
        self.start = gates + [(-here, value[root])]
        self.start += [(-here, -value[t] if entries[t][0] == "Y" else value[t]) for t in pasts]
        self.later = [(-here, here_before)] + gates + [row for p, s in kept for row in ((-here, -p, s), (-here, p, -s))]
        alike = [row for d, u, v in zip(differs, [earlier[t] for t in carry], [value[t] for t in carry])
                 for row in ((-d, u, v), (-d, -u, -v), (-equal, -u, v), (-equal, u, -v))] + [(equal, *differs)]
        near = [row for f, b in zip(fulfilled, rights) for row in ((-f, b), (f, -b))]
        far = [row for f, b, h in zip(fulfilled, rights, fulfilled_before) for row in ((f, -b), (f, -h), (-f, b, h))]
        loops = [] if finite else [(-loop, equal)] + [(-loop, -r, f) for r, f in zip(requests, fulfilled)]
        self.near, self.far, self.closing = alike + near + loops, alike + far + loops, (-accepted, empty)
        if finite:
            self.acceptance, self.repeats = [(-accepted, -value[t]) for t in places("X")], []
            self.prunes = [(-first, -equal)]
        else:
            self.acceptance = [self.closing] + [(-empty, -value[t]) for t in nexts]
            self.repeats = [(-equal, repeated)] + [(-equal, -f, s) for f, s in zip(fulfilled, seen)]
            self.prunes = [row for n, r, f, s in zip(new, requests, fulfilled, seen_earlier) for row in ((-n, r), (-n, f), (-n, -s))]
            self.prunes.append((-first, -equal, -repeated_earlier, *new))
        self.before, self.known = [0], {}
        for i in range(depth + 1):
            self.before.append(self.before[-1] + sum(len(rows) * times for rows, times, _ in self.blocks(i)))

    def here(self, i):
        return 2 + i * self.own + i * (i - 1) // 2 * self.pair

    def letters(self, depth):
        return self.here(depth + 1) - 1

    def equal(self, l, i):
        return self.here(i) + self.own + l * self.pair

    def blocks(self, i):
        """The rows of a step in order, how many earlier steps they stand for in turn, and the first of these."""
        return [(self.later if i else self.start, 1, 0), (self.far, max(i - 1, 0), 0), (self.near, min(i, 1), i - 1),
                (self.acceptance, 1, 0), (self.repeats, i, 0), (self.prunes, i, 0)]

    def clause(self, number):
        """The literals of a clause, each once. None where the list has no such clause."""
        if number not in self.known and number <= self.before[-1]:
            i = bisect.bisect_left(self.before, number) - 1
            place = number - 1 - self.before[i]
            for rows, times, l in self.blocks(i):
                if place < len(rows) * times:
                    break
                place -= len(rows) * times
            l, row = l + place // len(rows), rows[place % len(rows)]
            bases = 1, self.here(i), self.here(i - 1), self.here(l), self.equal(l, i), self.equal(l, i - 1)
            places = [(literal > 0, *divmod(abs(literal) - 1, 6)) for literal in row]
            literals = {bases[base] + offset if is_plain else -bases[base] - offset for is_plain, offset, base in places}
            literals.update(self.equal(l, i) + 1 for l in range(i if row is self.closing else 0))
            self.known[number] = tuple(literals)
        return self.known.get(number)


# The text of a certificate, and how far bytes that are none begin one.

def up_to(most):
    """A regular expression for the numbers from 1 to this one, which takes as many digits as it can."""
    digits = str(most)
    below = ["%s[%d-%d][0-9]{%d}" % (digits[:k], not k, int(digits[k]) - 1, len(digits) - k - 1)
             for k in range(len(digits)) if int(digits[k]) > (not k)]
    return "(?:%s|[1-9][0-9]{0,%d})" % ("|".join(below + [digits]), len(digits) - 2)


def pattern(text, **counts):
    return re.compile((text % dict(counts, l="-?" + up_to(LIMIT), h="-?" + up_to(2 ** 64 - 1), n=" " + up_to(2 ** 64 - 1))).encode())


HEADERS = [b"ltlcert %d %s %d\n" % (version, kind, depth)
           for version in (1, 2) for kind in (b"infinite", b"finite") for depth in range(1001)]
LINE, LINE_BEGUN = pattern("(?:%(l)s )*0 (?:%(h)s )*0\n"), pattern("(?:%(l)s )*(?:%(l)s|-|0(?: (?:%(h)s )*(?:%(h)s|-|0)?)?)?")
DELETE, DELETE_BEGUN = pattern("d(?:%(n)s)+\n"), pattern("d(?:%(n)s)* ?")
CLOSE, CLOSE_BEGUN = "close(?:%(n)s){%(most)d}\n", "c(?:l(?:o(?:s(?:e(?:(?:%(n)s){%(most)d}|(?:%(n)s){0,%(less)d} ?))?)?)?)?"


def parts_of(text):
    """The header of a certificate, its lines with its deletes, and its close. Refused with the byte of the fault where it is none."""
    header = next((header for header in HEADERS if text.startswith(header)), None)
    if not header:
        raise Refused("certificate fault at byte %d" % max(len(os.path.commonprefix([text[:len(h)], h])) for h in HEADERS), 3)
    at, lines, targets = len(header), [], int(header.split()[3]) + 2
    forms = {b"d": (DELETE, DELETE_BEGUN)} if header.startswith(b"ltlcert 2") else {}
    forms[b"c"] = [pattern(form, most=targets, less=targets - 1) for form in (CLOSE, CLOSE_BEGUN)]
    while not (lines and lines[-1][:1] == b"c"):
        form, begun = forms.get(text[at:at + 1], (LINE, LINE_BEGUN))
        found = form.match(text, at)
        if not found:
            raise Refused("certificate fault at byte %d" % begun.match(text, at).end(), 3)
        lines.append(found[0])
        at = found.end()
    if at < len(text):
        raise Refused("certificate fault at byte %d" % at, 3)
    return header, lines[:-1], lines[-1]


# The verdict.

def is_step(literals, hints, named, letters):
    """Whether a line is a hinted step. Each line that was one has its letters in range, so those that hints name have."""
    false = set(literals)
    if not hints or any(-literal in false or abs(literal) > letters for literal in literals):
        return False
    for hint in hints[:-1]:
        left = [literal for literal in named(hint) or [] if literal not in false]
        if len(left) != 1 or -left[0] in false:
            return False
        false.add(-left[0])
    last = named(hints[-1])
    return last is not None and false.issuperset(last)


def verdict(done, finite, text):
    header, lines, close = parts_of(text)
    if (b" finite " in header) != finite:
        return "REJECTED kind"
    depth = int(header.split()[3])
    clauses, live, count = ClauseList(*closure_of(done), finite, depth), {}, 0
    if clauses.letters(depth) > LIMIT:
        raise Refused("limit letters %d greatest depth %d" % (LIMIT, max(d for d in range(depth) if clauses.letters(d) <= LIMIT)), 4)
    for line in lines:
        words = line.split()
        if line[:1] == b"d":
            for word in words[1:]:
                live.pop(int(word), None)
            continue
        count, split = count + 1, words.index(b"0")
        literals, hints = [int(word) for word in words[:split]], [int(word) for word in words[split + 1:-1]]
        if not is_step(literals, hints, lambda hint: live.get(-hint) if hint < 0 else clauses.clause(hint), clauses.letters(depth)):
            return "REJECTED line %d" % count
        live[count] = tuple(set(literals))
    for i, target in enumerate(close.split()[1:]):
        here = clauses.here(min(i, depth))
        if not set(live.get(int(target), [0])) <= {-here, -here - 1 if i <= depth else -1}:
            return "REJECTED target %d" % (i + 1)
    return "VERIFIED"


def answer(data, finite):
    """The line and the status for an input of two parts."""
    try:
        separator = re.search(rb"(?:\A|\n)---\r?(?:\n|\Z)", data)
        if not separator:
            raise Refused("no separator line", 3)
        line = verdict(read(data[:separator.start()]), finite, data[separator.end():])
        return line, int(line != "VERIFIED")
    except Refused as refused:
        return refused.args


if __name__ == "__main__":
    if sys.argv[1:] not in ([], ["--finite"]):
        sys.exit(__doc__)
    said, status = answer(sys.stdin.buffer.read(), len(sys.argv) == 2)
    print(said)
    sys.exit(status)
