#!/usr/bin/env python3
"""Prints how fast `black-refute` refutes the formulas of families.REFUTED, with the length of its certificate.

    refuted.py [NAME=COMMAND..]

Beside it stand `maude`, where it is installed, on formulas without past operators, and each further command, which is given the formula
on standard input and `--finite` where it is asked about finite traces. Seconds are of processor time; a dash is a run that did not say
UNSAT within LIMIT seconds (60). Behind the table stand geometric means of ratios, over formulas that both refuted. A further argument
that is a folder is one with formulas of your own, a file each, `.finite.` in the name of those that are asked over finite traces.
"""
import math
import os
import re
import shutil
import subprocess
import sys
import tempfile

import families

TOP = os.path.dirname(os.path.dirname(os.path.abspath(__file__)))
PROGRAM = TOP + "/crates/black_refute/out/black_refute"
LIMIT = float(os.environ.get("LIMIT", "60"))
sys.path.insert(0, TOP + "/examples")

import check_certificate

# Our operators as Maude writes them. On finite traces `alive` is true up to the last state.
BINARY = {word: "({a}) %s ({b})" % other for word, other in zip("& | -> <-> U R W".split(), "/\\ \\/ -> <-> U R W".split())}
UNARY = {"!": "~ (%s)", "X": "O (%s)", "wX": "O (%s)", "F": "<> (%s)", "G": "[] (%s)"}
ALIVE = {"X": "O (alive /\\ (%s))", "wX": "O (~ alive \\/ (%s))", "F": "<> (alive /\\ (%s))", "G": "[] (~ alive \\/ (%s))",
         "U": "({a}) U (alive /\\ ({b}))", "R": "(~ alive \\/ ({b})) W (alive /\\ ({a}) /\\ ({b}))", "W": "(~ alive \\/ ({a})) W (alive /\\ ({b}))"}


def maude_formula(text, finite):
    """The formula and its letters as Maude reads them. None where Maude has no such operator."""
    stack, letters = [], {}
    unary = dict(UNARY, **ALIVE) if finite else UNARY
    for word, numbers in check_certificate.read(text.encode()):
        if word in BINARY:
            b, a = stack.pop(), stack.pop()
            stack.append((ALIVE if finite and word in "URW" else BINARY)[word].format(a=a, b=b))
        elif word in unary and not numbers:
            stack.append(unary[word] % stack.pop())
        elif word in ("true", "false"):
            stack.append("True" if word == "true" else "False")
        elif word in check_certificate.UNARY or word in check_certificate.RANKS:
            return None
        else:
            stack.append(letters.setdefault(word, "l%d" % len(letters)))
    formula = stack[0]
    if finite:
        formula = "(%s) /\\ alive /\\ (alive U ([] (~ alive)))" % formula
    return formula, sorted(letters.values()) + ["alive"] * finite


def maude_input(text, finite):
    made = maude_formula(text, finite)
    if not made:
        return None
    return ("load model-checker .\nfmod F is including SAT-SOLVER .\nops %s : -> Formula .\nendfm\nred satSolve(%s) .\nquit\n"
            % (" ".join(made[1]), made[0]))


def seconds_of(command, text, accepts):
    """The processor seconds of the command and what it printed, where that is accepted."""
    with tempfile.TemporaryFile() as source, tempfile.TemporaryFile() as sink:
        source.write(text.encode())
        source.seek(0)
        child = subprocess.Popen(["timeout", str(LIMIT)] + command, stdin=source, stdout=sink, stderr=subprocess.STDOUT)
        _, status, used = os.wait4(child.pid, 0)
        child.returncode = status
        sink.seek(0)
        out = sink.read().decode(errors="replace")
    return (used.ru_utime + used.ru_stime, out) if re.search(accepts, out) else None


def formulas(folders):
    if not folders:
        return [("%s %d" % (name.split(".")[0], size), families.FAMILIES[name.split(".")[0]](size), name.endswith(".finite")) for name, size in families.REFUTED]
    files = sorted(os.path.join(folder, file) for folder in folders for file in os.listdir(folder))
    return [(os.path.basename(file), open(file).read(), ".finite." in file) for file in files]


def main(words):
    others = dict(word.split("=", 1) for word in words if "=" in word)
    if subprocess.run([TOP + "/build", "black_refute", "--finite"], stdin=subprocess.DEVNULL).returncode != 0:
        return 125
    maude = shutil.which("maude")
    names = ["black-refute"] + ["Maude"] * bool(maude) + list(others)
    print("| formula | " + " | ".join(names) + " | bytes |\n|" + "---|" * (len(names) + 2), flush=True)
    ratios = {name: [] for name in names[1:]}
    for name, text, finite in formulas([word for word in words if "=" not in word]):
        kind = ["--finite"] * finite
        ours = seconds_of([PROGRAM, "--cert"] + kind, text, r"\AUNSAT\n")
        runs = [ours]
        if maude:
            given = maude_input(text, finite)
            runs.append(given and seconds_of([maude, "-no-banner", "-no-advise"], given, r"result Bool: false"))
        runs += [seconds_of(command.split() + kind, text, r"(?m)^UNSAT") for command in others.values()]
        for other, run in zip(names[1:], runs[1:]):
            if ours and run:
                ratios[other].append(math.log(max(ours[0], 0.001) / max(run[0], 0.001)))
        size = len(ours[1].encode()) - len("UNSAT\n") if ours else "-"
        print("| %s | %s | %s |" % (name, " | ".join("%.3f" % run[0] if run else "-" for run in runs), size), flush=True)
    for other, logs in ratios.items():
        if logs:
            print("black-refute takes %.2f times the time of %s in the mean, %.2f at most, over %d formulas" %
                  (math.exp(sum(logs) / len(logs)), other, math.exp(max(logs)), len(logs)))
    return 0


if __name__ == "__main__":
    sys.exit(main(sys.argv[1:]))
