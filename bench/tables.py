#!/usr/bin/env python3
"""Prints a table of how fast a part of the product is.

    tables.py closure     large formulas: the entries of their closures
    tables.py clauses     the clause list of a token ring of 32 letters through depth 64
    tables.py tableau     families of formulas: the answer, and what the solver learnt
    tables.py solver      the solver alone on clauses, beside `minisat` and `cadical` where they are installed
    tables.py check       certificates: how fast `black check` reads and judges them, by one worker and by four

Seconds are of processor time, and in the last table of the clock. The program `black_bench`, or `black`, is built first where it is
not there yet or a source is newer, as `./black` does. LIMIT is the number of seconds after which a run is given up (120).
"""
import os
import shutil
import subprocess
import sys
import tempfile
import time

import clauses
import families

TOP = os.path.dirname(os.path.dirname(os.path.abspath(__file__)))
BENCH = TOP + "/crates/black_bench/out/black_bench"
PROGRAM = TOP + "/crates/black_main/out/black_main"
LIMIT = os.environ.get("LIMIT", "120")


def build(crate, word):
    """Builds the program of the crate, if it is not there or is older than a source. What `build` does it says on standard error."""
    if subprocess.run([TOP + "/build", crate, word], stdin=subprocess.DEVNULL).returncode != 0:
        sys.exit(125)


def measured(words, text):
    """What the command prints on the text, its seconds and its MiB."""
    with tempfile.TemporaryFile() as source, tempfile.TemporaryFile() as sink:
        source.write(text.encode())
        source.seek(0)
        child = subprocess.Popen(["timeout", LIMIT] + words, stdin=source, stdout=sink, stderr=subprocess.DEVNULL)
        _, status, used = os.wait4(child.pid, 0)
        child.returncode = status
        sink.seek(0)
        out = sink.read().decode(errors="replace").split()
    return out, used.ru_utime + used.ru_stime, used.ru_maxrss // 1024


def row(*cells):
    print("| " + " | ".join(str(cell) for cell in cells) + " |", flush=True)


def head(*cells):
    row(*cells)
    row(*["---"] * len(cells))


def closure_table():
    head("formula", "entries", "seconds", "MiB")
    for name, text in (
            ("a chain of 8,000 `<->`", " <-> ".join("abcdefgh"[i % 8] for i in range(8001))),
            ("8,191 nested `U`", " U ".join("p%d" % i for i in range(8192))),
            ("a token ring of 64 letters", families.ring(64)),
            ("`G[0,255] F[0,255] p`", "G[0,255] F[0,255] p"),
            ("64 nested `F[0,255]`", "F[0,255] " * 64 + "p")):
        out, seconds, memory = measured([BENCH, "closure"], text)
        row(name, out[0] if out else "", "%.4f" % seconds, memory)


def clauses_table():
    head("formula", "depth", "clauses", "seconds", "MiB")
    out, seconds, memory = measured([BENCH, "clauses", "64"], families.ring(32))
    row("token ring of 32 letters", 64, out[0] if out else "", "%.2f" % seconds, memory)


def tableau_table():
    head("formula", "answer", "clauses", "lines", "literals", "hints", "seconds", "MiB")
    for name, size in families.SET:
        if name.endswith(".finite"):
            continue
        out, seconds, memory = measured([BENCH, "tableau", "64"], families.FAMILIES[name](size))
        cells = (out + [""] * 6)[:6]
        row("%s %d" % (name, size), " ".join(cells[:2]) if out else "none in time", *cells[2:], "%.2f" % seconds, memory)


def beside(text):
    """The seconds of each other solver that is installed, on a DIMACS text."""
    cells = []
    for solver in ("minisat", "cadical"):
        if not shutil.which(solver):
            cells.append("")
            continue
        with tempfile.NamedTemporaryFile("w", suffix=".cnf") as source:
            source.write(text)
            source.flush()
            cells.append("%.3f" % measured([solver, source.name], "")[1])
    return cells


def solver_table():
    head("clauses", "answer", "lines", "seconds", "MiB", "minisat", "cadical")
    lists = [("random, %d letters, seed %d" % (letters, seed), clauses.random_clauses(letters, seed))
             for letters in (150, 200, 250) for seed in range(1, 11)]
    lists += [("pigeons in %d holes" % holes, clauses.pigeons(holes)) for holes in (7, 8)]
    lists += [("a chain of %d letters" % letters, clauses.chain(letters)) for letters in (100000, 1000000)]
    for name, (letters, found) in lists:
        out, seconds, memory = measured([BENCH, "solver"], clauses.one_question(letters, found))
        answer = ("SAT" if out[0] == "1" else "UNSAT") if len(out) == 6 else "none in time"
        row(name, answer, out[4] if len(out) == 6 else "", "%.3f" % seconds, memory, *beside(clauses.dimacs(letters, found)))


def timed(words, source, sink):
    """The seconds of the clock that the command takes from one file to the other, and its MiB."""
    source.seek(0)
    begun = time.monotonic()
    child = subprocess.Popen(["timeout", LIMIT] + words, stdin=source, stdout=sink, stderr=subprocess.DEVNULL)
    _, status, used = os.wait4(child.pid, 0)
    child.returncode = status
    return time.monotonic() - begun, used.ru_maxrss // 1024


def hint_count(certificate):
    """How many hints a certificate has: the numbers between the 0 behind the literals and the last 0 of each line."""
    count = 0
    for line in certificate.split(b"\n")[1:]:
        if line[:1] not in (b"", b"c", b"d"):
            words = line.split(b" ")
            count += len(words) - words.index(b"0") - 2
    return count


def check_row(name, size):
    formula = families.FAMILIES[name](size).encode()
    with tempfile.TemporaryFile() as source, tempfile.TemporaryFile() as sink, tempfile.TemporaryFile() as text:
        source.write(formula)
        source.flush()
        plain, _ = timed([PROGRAM, "solve"], source, subprocess.DEVNULL)
        solve, _ = timed([PROGRAM, "solve", "--cert"], source, sink)
        sink.seek(0)
        verdict, _, certificate = sink.read().partition(b"\n")
        if not verdict.startswith(b"UNSAT"):
            row("%s %d" % (name, size), verdict.decode() or "none in time")
            return
        text.write(formula + b"\n---\n" + certificate)
        text.flush()
        cells = []
        for workers in (1, 4):
            seconds, memory = timed([PROGRAM, "check", "--workers", str(workers)], text, subprocess.DEVNULL)
            cells += ["%.3f" % seconds, "%.0f" % (len(certificate) / seconds / 1e6),
                      "%.1f" % (hint_count(certificate) / seconds / 1e6), memory]
        row("%s %d" % (name, size), verdict.decode(), "%.1f" % (len(certificate) / 1e6), "%.2f" % plain, "%.2f" % solve, *cells)


def check_table():
    head("formula", "answer", "MB", "solve", "with `--cert`", "one worker", "MB/s", "million hints/s", "MiB",
         "four workers", "MB/s", "million hints/s", "MiB")
    for name, size in (("starved", 3), ("conflict", 7), ("stuck", 6)):
        check_row(name, size)


TABLES = {"closure": closure_table, "clauses": clauses_table, "tableau": tableau_table, "solver": solver_table,
          "check": check_table}


def main(words):
    if len(words) != 1 or words[0] not in TABLES or not LIMIT.isdecimal():
        print(__doc__, file=sys.stderr)
        return 2
    if words[0] == "check":
        build("black_main", "words")
    else:
        build("black_bench", "closure")
    TABLES[words[0]]()
    return 0


if __name__ == "__main__":
    sys.exit(main(sys.argv[1:]))
