#!/usr/bin/env python3
"""Answers a document of requirements by asking a `black-refute` each question: what docs/REQUIREMENTS.md says, with nothing of
`./black-requirements` in it, so that each judges the other.

    requirements_prototype.py REFUTE [--json | --html | --letters] [--only NAME] [--cert NAME] [--steps N] [--check]
                              [--against REPORT] < DOCUMENT

REFUTE is the program, as `./black-refute`. With --check each certificate is judged by it and by examples/check_claims.py, and each
behaviour by formula_values.py. With --against it says where REPORT, what another program prints with --json, says something else.
"""
import json
import os
import re
import subprocess
import sys
import tomllib
import unicodedata

HERE = os.path.dirname(os.path.abspath(__file__))
sys.path.insert(0, os.path.join(HERE, "..", "examples"))
from check_certificate import Refused, read  # noqa: E402
from formula_values import arity, bare, joined, letters_of, nodes, parts, printed, states_of, values  # noqa: E402

MOST = 16384  # nodes of a formula
MOST_CLAIMS = 12  # that the text shows of a conflict
MOST_CELLS = 16777216  # of a picture
ROLES = ["assume", "require", "allow", "ensure"]
KEYS = {"define": (["name", "formula"], ["text"]), "behaviour": (["name"], ["text", "states", "stem", "loop"]),
        **{role: (["name", "formula"], ["text"]) for role in ROLES}}
NOT = ("!", [])


# The document.

class Item:
    def __init__(self, role, number, table):
        self.role, self.number, self.name, self.text = role, number, table["name"], table.get("text")
        self.formula, self.place = table.get("formula"), place_of(role, number, table)


def place_of(role, number, table):
    return "%s %d" % (role, number) + (" (%s)" % flat(table["name"]) if isinstance(table.get("name"), str) and table["name"] else "")


def flat(text):
    """On one line: a blank for white space, and U+FFFD for what no terminal and no XML shows."""
    unfit = [chr(c) for c in list(range(32)) + list(range(127, 160)) + [0xFFFE, 0xFFFF]]
    for white in "\t\n\r":
        text = text.replace(white, " ")
    return "".join("\ufffd" if c in unfit else c for c in " ".join(part for part in text.split(" ") if part))


def wrong(place, what):
    raise Refused("document fault in %s: %s" % (place, what), 3)


HINTS = {"always": "G", "globally": "G", "eventually": "F", "finally": "F", "next": "X", "until": "U", "weakuntil": "W", "release": "R",
         "V": "R", "since": "S", "once": "O", "historically": "H", "yesterday": "Y", "and": "&", "or": "|", "not": "!", "implies": "->",
         "iff": "<->", "[]": "G", "<>": "F", "=": "<->", "==": "<->", "/\\": "&", "\\/": "|"}


def hint_of(formula, byte):
    """What to write where the text at the byte, or the word before it, is one of another tool."""
    before, behind = formula.encode()[:byte].decode(errors="ignore"), formula.encode()[byte:].decode(errors="ignore")
    for sign in ("[]", "<>", "==", "=", "^", "/\\", "\\/"):
        if behind.startswith(sign) or sign == "==" and before.endswith("=") and behind.startswith("="):
            return ["    hint: " + ("!(p <-> q) in place of p ^ q" if sign == "^" else "%s in place of %s" % (HINTS[sign], sign))]
    if before[-1:] in ("X", "Y", "F", "G", "O", "H") and behind[:1] in ("[", "<"):
        return ["    hint: numbers from 0 to 255 without a blank, as in F[0,3] and X[3]"]
    for word in ((behind.split() or [""])[0], (before.split() or [""])[-1]):
        if word in HINTS and word.isalpha():
            return ["    hint: %s in place of %s" % (HINTS[word], word)]
        if len(word) > 1 and set(word) <= set("XFGYZOH"):
            return ["    hint: %s in place of %s" % (" ".join(word), word)]
    return []


def formula_of(item, definitions):
    """What is written, with definitions put in."""
    try:
        done = read(item.formula.encode())
    except Refused as refused:
        raise Refused("\n".join([refused.args[0].replace(" at byte", " in %s at byte" % item.place)] + shown_fault(item, refused.args[0])), 3)
    put_in = sum([definitions.get(word, [(word, numbers)]) for word, numbers in done], [])
    if nodes(put_in) > MOST:
        raise Refused("limit nodes %d have %d in %s" % (MOST, nodes(put_in), item.place), 4)
    return put_in


def shown_fault(item, message):
    byte = int(message.split()[-1])
    before = item.formula.encode()[:byte].decode(errors="ignore")
    line = item.formula.split("\n")[before.count("\n")]
    column = len(before.split("\n")[-1])
    return ["    line %d, column %d" % (before.count("\n") + 1, column + 1), "    " + line, "    " + " " * column + "^"] + hint_of(item.formula, byte)


def checked(place, table, needed, others):
    if not isinstance(table, dict):
        wrong(place, "it is no table")
    for key in table:
        if key not in needed + others:
            wrong(place, "unknown key %s" % key)
    for key in needed:
        if key not in table:
            wrong(place, "no key %s" % key)
    for key in ("name", "text", "formula"):
        if not isinstance(table.get(key, ""), str):
            wrong(place, "%s wants a text" % key)
    if table["name"] == "":
        wrong(place, "the name is empty")


def trace_of(place, table):
    keys = sorted(key for key in table if key in ("states", "stem", "loop"))
    if keys not in (["states"], ["loop", "stem"]):
        wrong(place, "it has either states, or stem and loop")
    for key in keys:
        if not isinstance(table[key], list) or not all(isinstance(s, list) and all(isinstance(n, str) for n in s) for s in table[key]):
            wrong(place, "%s wants an array of states, each an array of letters" % key)
        if key != "stem" and not table[key]:
            wrong(place, "%s is empty" % key)
    kind = "finite" if keys == ["states"] else "infinite"
    return {"kind": kind, **{key: [sorted(set(state)) for state in table[key]] for key in keys}}


class Document:
    def __init__(self, text):
        try:
            tables = tomllib.loads(text.decode())
        except (UnicodeDecodeError, tomllib.TOMLDecodeError) as error:
            raise Refused("document fault: %s" % error, 3)
        for key in tables:
            if key != "traces" and key not in KEYS:
                wrong("the document", "unknown key %s" % key)
            if key in KEYS and not isinstance(tables[key], list):
                wrong("the document", "%s wants an array of tables" % key)
        self.traces = tables.get("traces", "infinite")
        if self.traces not in ("infinite", "finite"):
            wrong("the document", 'traces wants "infinite" or "finite"')
        self.definitions, self.items, self.behaviours, names = {}, [], [], set()
        for role in ["define"] + ROLES + ["behaviour"]:
            for number, table in enumerate(tables.get(role, []), 1):
                place = place_of(role, number, table if isinstance(table, dict) else {})
                checked(place, table, *KEYS[role])
                item = Item(role, number, table)
                if role == "define":
                    self.define(item)
                    continue
                if item.name in names:
                    wrong(place, "the name stands twice")
                names.add(item.name)
                if role == "behaviour":
                    item.trace = trace_of(place, table)
                    self.behaviours.append(item)
                else:
                    item.done = formula_of(item, self.definitions)
                    self.items.append(item)

    def define(self, item):
        if not item.name.isidentifier() or arity(item.name) or item.name in ("true", "false", "True", "False"):
            wrong(item.place, "the name is no letter")
        if item.name in self.definitions:
            wrong(item.place, "the name stands twice")
        self.definitions[item.name] = formula_of(item, self.definitions)

    def of(self, *roles):
        return [item for item in self.items if item.role in roles]


# Questions.

class Asker:
    def __init__(self, refute, traces, steps, is_checking):
        self.refute, self.steps, self.is_checking, self.count = refute, steps, is_checking, 0
        self.kind = ["--finite"] if traces == "finite" else []

    def run(self, formula, *words):
        self.count += 1
        return subprocess.run([self.refute, *self.kind, *words], input=formula.encode(), capture_output=True).stdout.decode()

    def ask(self, given, asked):
        """A behaviour of them all, claims where there is none, or None."""
        done = joined([item.done for item in given] + ([asked] if asked else []))
        if nodes(done) > MOST:
            return {"nodes": nodes(done)}
        lines = self.run(printed(done), "--steps", str(self.steps)).splitlines()
        if lines[0] == "SAT":
            trace = json.loads(lines[1])
            if self.is_checking and not all(values(one, trace)[0] for one in [item.done for item in given] + ([asked] if asked else [])):
                sys.exit("a formula does not hold on its behaviour: " + printed(done))
            return {"trace": trace}
        if lines[0] == "UNSAT":
            return {"claims": [line[len("never "):] for line in lines[1:]]}
        return {"steps": self.steps}

    def answer(self, given, asked=None):
        """As `ask`, and where they cannot be met a least set of what is given."""
        found = self.ask(given, asked)
        if "claims" not in found:
            return found
        kept, unsure = list(given), set()
        for item in reversed(given):
            others = [other for other in kept if other is not item]
            without = self.ask(others, asked)
            if "claims" in without:
                kept, found = others, without
            elif "trace" not in without:
                unsure.add(item.name)
        found["because"] = [{"name": item.name, "needed": item.name not in unsure} for item in kept]
        found["formula"] = printed(joined([item.done for item in kept] + ([asked] if asked else [])))
        if self.is_checking:
            self.check(found["formula"])
        return found

    def check(self, formula):
        text = "%s\n---\n%s" % (formula, self.run(formula, "--cert").split("\n", 1)[1])
        other = subprocess.run([sys.executable, os.path.join(HERE, "..", "examples", "check_claims.py"), *self.kind],
                               input=text.encode(), capture_output=True).stdout.decode()
        if (self.run(text, "--check"), other) != ("VERIFIED\n", "VERIFIED\n"):
            sys.exit("not verified: " + formula)


def trigger_of(done):
    """`F a` for `G (a -> b)`."""
    (word, numbers), operands = parts(done)
    if word == "G" and not numbers and operands[0][-1][0] == "->":
        return parts(operands[0])[1][0] + [("F", [])]


def breach(item, trace):
    """Where a behaviour breaks an item: the first position at which the operand of a G fails, and else the first one."""
    if values(item.done, trace)[0]:
        return None
    (word, numbers), operands = parts(item.done)
    found = {"name": item.name, "position": 0}
    if word == "G" and not numbers:
        found["position"] = values(operands[0], trace).index(False)
        if operands[0][-1][0] == "->":
            asked, unanswered = parts(operands[0])[1]
            found.update(asked=bare(printed(asked)), unanswered=bare(printed(unanswered)))
    return found


WORDS = {"consistent": ("consistent", "conflict"), "triggered": ("triggered", "never triggered"),
         "new": ("new", "follows from the others"), "possible": ("possible", "impossible"), "follows": ("fails", "follows")}


def answers_of(document, asker, only):
    answers, aside = [], []

    def put(question, name, given, asked=None):
        found = asker.answer(given, asked)
        word = "undecided" if "steps" in found or "nodes" in found else WORDS[question]["claims" in found]
        answers.append({"question": question, "answer": word, **({"name": name} if name else {}), **found,
                        "holds": [item.done for item in given] + ([asked] if asked else [])})
        return word

    given = document.of("assume", "require")
    while put("consistent", None, given) == "conflict":
        members = [member["name"] for member in answers[-1]["because"]]
        aside += members
        given = [item for item in given if item.name not in members]
    for item in document.items:
        if only not in (None, item.name):
            continue
        if item.role == "require" and item in given:
            trigger = trigger_of(item.done)
            if trigger:
                put("triggered", item.name, given, trigger)
            put("new", item.name, [other for other in given if other is not item], item.done + [NOT])
        elif item.role == "allow":
            put("possible", item.name, given, item.done)
        elif item.role == "ensure":
            put("follows", item.name, given, item.done + [NOT])
    for item in document.behaviours:
        if only in (None, item.name):
            breaks = [found for found in [breach(item_given, item.trace) for item_given in document.of("assume", "require")] if found]
            answers.append({"question": "keeps", "answer": "breaks" if breaks else "keeps", "name": item.name, "breaks": breaks,
                            "trace": item.trace})
    return answers, [item.name for item in document.items if item.name in aside]


# What is said of the answers.

BAD = ("conflict", "impossible", "fails", "breaks")
ASKED = {"consistent": "can all of them be met together?", "triggered": "is it ever triggered?", "new": "does it say anything new?",
         "possible": "may it happen?", "follows": "does it follow?"}
COUNTS = [("consistent", "met together"), ("triggered", "triggered"), ("new", "says something new"), ("possible", "possible"),
          ("follows", "follows"), ("keeps", "keeps all")]


def verdict(answers):
    words = [answer["answer"] for answer in answers]
    return ("not as wished", 1) if set(words) & set(BAD) else ("undecided", 30) if "undecided" in words else ("as wished", 0)


def changes(a, b):
    """How many changes make one text of the other: a character put in, left out or put in place of another, or two neighbours that change
    places, none of them changed again."""
    before, last = [], list(range(len(b) + 1))
    for i, x in enumerate(a):
        row = [i + 1]
        for j, y in enumerate(b):
            row.append(min(row[j] + 1, last[j + 1] + 1, last[j] + (x != y)))
            if i > 0 and j > 0 and x == b[j - 1] and y == a[i - 1] and x != y:
                row[-1] = min(row[-1], before[j - 1] + 1)
        before, last = last, row
    return last[-1]


def differ_inside(a, b):
    """Whether both have a character at the first place where they differ, neither is a digit, and it is not the first place, nor right
    behind a `_`, nor the last of both."""
    for k, (x, y) in enumerate(zip(a, b)):
        if x != y:
            return k > 0 and a[k - 1] != "_" and not set(x + y) & set("0123456789") and not k + 1 == len(a) == len(b)
    return False


def is_near(a, b):
    """Whether they differ, and are the same but for capitals of ASCII and `_`, or but for one change within."""
    folded = [re.sub("[A-Z]", lambda c: c[0].lower(), name.replace("_", "")) for name in (a, b)]
    return a != b and (folded[0] == folded[1] or min(len(a), len(b)) >= 4 and differ_inside(a, b) and changes(a, b) == 1)


def uses_of(document):
    letters = sorted(set().union(*[letters_of(item.done) for item in document.items], set()), key=str.encode)
    return [{"letter": letter, "items": [item.name for item in document.items if letter in letters_of(item.done)]} for letter in letters]


def slips_of(document):
    uses = uses_of(document)
    found = []
    for use in uses:
        near = [other["letter"] for other in uses if len(use["items"]) <= len(other["items"]) and is_near(use["letter"], other["letter"])]
        if near or len(use["items"]) == 1:
            found.append({"letter": use["letter"], "items": use["items"], "nearly": near[:1]})
    return found


def wide(text):
    return sum(0 if unicodedata.combining(c) else 2 if unicodedata.east_asian_width(c) in "WF" else 1 for c in text)


def rows_of(answer):
    """The rows of a picture: names and the states in which they are true."""
    states = states_of(answer["trace"])
    return [(flat_name(name), [name in state for state in states]) for name in sorted(set(sum(states, [])), key=str.encode)]


def marked(answer):
    """The rows of the text's picture: with a last one, `!`, of the states in which a behaviour first breaks something."""
    if not answer.get("breaks"):
        return rows_of(answer)
    trace, count = answer["trace"], len(states_of(answer["trace"]))
    stem = len(trace.get("stem", []))
    columns = {p if "stem" not in trace or p < stem else stem + (p - stem) % (count - stem) for p in (found["position"] for found in answer["breaks"])}
    marks = [k in columns for k in range(count)]
    own = [(name, [a or b for a, b in zip(cells, marks)] if name == "!" else cells) for name, cells in rows_of(answer)]
    return own + [("!", dict(own).get("!", marks))]


def flat_name(name):
    return "".join("\ufffd" if unicodedata.category(c) == "Cc" or c in "\ufffe\uffff" else c for c in name)


def is_drawn(answer, rows):
    return (len(rows) + 1) * len(states_of(answer["trace"])) <= MOST_CELLS


def picture(answer, width):
    rows, states = marked(answer), states_of(answer["trace"])
    start = len(answer["trace"]["stem"]) if "stem" in answer["trace"] else None
    names, digits, lines = max([0] + [wide(name) for name, _ in rows]), len(str(len(states) - 1)), []
    block = max(1, (max(0, width - names)) // (digits + 1))
    for first in range(0, len(states), block):
        span = range(first, min(first + block, len(states)))
        lines += [""] if first else []
        for name, cells in [("", [str(i) for i in range(len(states))])] + [(name, [".#"[cell] for cell in row]) for name, row in rows]:
            lines.append(name + " " * (names - wide(name)) + "".join(("|" if i == start else " ") + cells[i].rjust(digits) for i in span))
        if start is not None and start < span.stop:
            lines.append(" " * names + "".join(" " * (digits + 1) if i < start else "-^"[i == start] + "-" * (digits - 1)
                                               + "-<"[i + 1 == len(states)] for i in span))
    return lines


def members(because):
    return ", ".join(flat(member["name"]) + ("" if member["needed"] else " (perhaps)") for member in because)


def block_of(document, answer, aside):
    """The lines of an answer."""
    word, given = answer["answer"], len(document.of("assume", "require"))
    items = {item.name: item for item in document.items + document.behaviours}
    left = [flat(name) for name in aside]
    lines = []
    if word == "conflict":
        head = members(answer["because"])
        for member in answer["because"]:
            item = items[member["name"]]
            lines += ["    " + flat(item.name)] + ["        " + flat(text) for text in (item.text, item.formula) if flat(text or "")]
        lines += ["    never " + claim for claim in answer["claims"][:MOST_CLAIMS]]
        if len(answer["claims"]) > MOST_CLAIMS:
            lines.append("    and %d more" % (len(answer["claims"]) - MOST_CLAIMS))
        lines += [] if answer["claims"] else ["    no first state meets them"]
        return [word + ": " + head] + lines
    if answer["question"] == "consistent":
        head = "%d of %d" % (given - len(aside), given)
        lines += ["    without: " + ", ".join(left)] if left else []
    else:
        item = items[answer["name"]]
        head = flat(item.name)
        lines += ["    " + flat(item.text)] if flat(item.text or "") else []
    if word == "undecided":
        lines += ["    " + ASKED[answer["question"]]]
        lines += ["    tried: %d steps" % answer["steps"] if "steps" in answer else "    limit nodes %d have %d" % (MOST, answer["nodes"])]
    if "because" in answer:
        lines += ["    because of: " + members(answer["because"]) if answer["because"] else "    by itself"]
    for found in answer.get("breaks", []):
        lines += ["    %s at %d" % (flat(found["name"]), found["position"])]
        lines += ["        asked: " + found["asked"], "        not answered: " + found["unanswered"]] if "asked" in found else []
    if "trace" in answer and word != "keeps":
        lines += [("    " + line).rstrip() for line in picture(answer, 76)] if is_drawn(answer, marked(answer)) else ["    limit cells %d" % MOST_CELLS]
    return ["%s: %s" % (word, head)] + lines


def counts_of(document, answers, aside):
    given = len(document.of("assume", "require"))
    for question, words in COUNTS:
        asked = [answer["answer"] for answer in answers if answer["question"] == question]
        if question == "consistent":
            yield words, given - len(aside) if asked[-1] == "consistent" else 0, given
        elif asked:
            yield words, sum(word in (question, "follows") for word in asked), len(asked)


def shown_of(answers, only):
    return [answer for answer in answers if only is not None or answer["answer"] not in ("triggered", "new")]


def text_of(document, answers, aside, only):
    blocks = [block_of(document, answer, aside) for answer in shown_of(answers, only)]
    slips = slips_of(document) if only is None else []
    if slips:
        blocks.append(["perhaps a slip"] + ["    %s: %s" % (slip["letter"], "; ".join(
            (["in %s alone" % flat(slip["items"][0])] if len(slip["items"]) == 1 else []) + ["nearly " + near for near in slip["nearly"]]))
            for slip in slips])
    blocks.append([verdict(answers)[0]] + ["    %s: %d of %d" % count for count in counts_of(document, answers, aside)])
    return "\n\n".join("\n".join(block) for block in blocks) + "\n"


def json_of(document, answers, aside):
    whole = {"answers": [{key: value for key, value in answer.items() if key not in ("formula", "holds")} for answer in answers], "aside": aside,
             "items": [{"formula": item.formula, "name": item.name, "role": item.role, "text": item.text} for item in document.items],
             "letters": uses_of(document), "slips": slips_of(document), "traces": document.traces, "verdict": verdict(answers)[0]}
    return json.dumps(whole, sort_keys=True, separators=(",", ":"), ensure_ascii=False) + "\n"


def differences(whole, other, answers):
    """Where the JSON text of another program says something else. Its traces are free, and are judged."""
    def settled(report):
        return {**report, "answers": [{k: v for k, v in answer.items() if k not in ("claims",) + (() if "breaks" in answer else ("trace",))}
                                      for answer in report["answers"]]}

    mine, theirs = settled(whole), settled(other)
    for key in sorted(set(mine) | set(theirs)):
        if key != "answers" and mine.get(key) != theirs.get(key):
            yield "%s: %s, wanted %s" % (key, theirs.get(key), mine.get(key))
    if len(mine["answers"]) != len(theirs["answers"]):
        yield "%d answers, wanted %d" % (len(theirs["answers"]), len(mine["answers"]))
    for answer, mine, theirs, said in zip(answers, mine["answers"], theirs["answers"], other["answers"]):
        if mine != theirs:
            yield "%s, wanted %s" % (theirs, mine)
        elif "trace" in said and not all(values(done, said["trace"])[0] for done in answer.get("holds", [])):
            yield "the behaviour of %s is none" % mine


def certificate_of(answers, name, asker):
    """The formula and the certificate of the first answer about the item that says `cannot`."""
    for answer in answers:
        about = [answer["name"]] if "name" in answer else [member["name"] for member in answer.get("because", [])]
        if "because" in answer and name in about:
            return "%s\n---\n%s" % (answer["formula"], asker.run(answer["formula"], "--cert").split("\n", 1)[1])
    raise Refused("no certificate", 1)


def main(words):
    options = {"--only": None, "--cert": None, "--against": None, "--steps": "10000000"}
    for option in options:
        if option in words:
            at = words.index(option)
            options[option] = words[at + 1]
            del words[at:at + 2]
    try:
        document = Document(sys.stdin.buffer.read())
        if "--letters" in words:
            print("\n".join("%s: %s" % (use["letter"], ", ".join(map(flat, use["items"]))) for use in uses_of(document)))
            return 0
        asker = Asker(words[0], document.traces, int(options["--steps"]), "--check" in words)
        only = options["--only"] or options["--cert"]
        if only is not None and only not in [item.name for item in document.items + document.behaviours]:
            raise Refused("no item " + flat(only), 2)
        answers, aside = answers_of(document, asker, only)
        if options["--cert"]:
            print(certificate_of(answers, options["--cert"], asker), end="")
            return 0
        if options["--against"]:
            with open(options["--against"], encoding="utf-8") as report:
                said = list(differences(json.loads(json_of(document, answers, aside)), json.load(report), answers))
            print("\n".join(said) or "agrees")
            return len(said) > 0
        if "--html" in words:
            from requirements_page import page_of
            print(page_of(document, answers, aside, options["--only"]), end="")
        else:
            print(json_of(document, answers, aside) if "--json" in words else text_of(document, answers, aside, options["--only"]), end="")
        return verdict(answers)[1]
    except Refused as refused:
        print(refused.args[0])
        return refused.args[1]


if __name__ == "__main__":
    sys.exit(main(sys.argv[1:]))
