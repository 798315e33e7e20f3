#!/usr/bin/env python3
"""Refuses each growth of memory of a run of `black` in turn, and looks at what the run answers.

    refused_memory.py                  status 1 where an answer is neither the full one nor want of memory with nothing written
    refused_memory.py WORDS INPUT      the same with these words and the bytes of this file alone

The program is built first where it is not there yet or a source is newer, as `./black` does.
Each run refuses one request for memory, the first, the second and so on, until a run comes in which none was refused. A small C
library, which is built by `cc` and put before the C library by LD_PRELOAD, counts the requests from the program's first own one on.
Not a part of the gate: some thousand runs an input.
"""
import os
import subprocess
import sys
import tempfile

TOP = os.path.dirname(os.path.dirname(os.path.abspath(__file__)))
PROGRAM = TOP + "/crates/black_main/out/black_main"
LIMIT = 60

COUNTER = r"""
#define _GNU_SOURCE
#include <dlfcn.h>
#include <errno.h>
#include <stdlib.h>
#include <stdio.h>
#include <unistd.h>

static long refused = -1, asked;

static int is_refused(void) {
    if (refused < 0) refused = atol(getenv("REFUSED"));
    long number = __atomic_add_fetch(&asked, 1, __ATOMIC_RELAXED);
    if (number != refused) return 0;
    if (write(9, "refused\n", 8) < 0) { }
    errno = ENOMEM;
    return 1;
}

#define NEXT(type, name) static type next; if (!next) next = (type)dlsym(RTLD_NEXT, name)

void *malloc(size_t size) {
    typedef void *(*call)(size_t);
    NEXT(call, "malloc");
    return is_refused() ? 0 : next(size);
}

void *realloc(void *block, size_t size) {
    typedef void *(*call)(void *, size_t);
    NEXT(call, "realloc");
    return is_refused() ? 0 : next(block, size);
}

void *aligned_alloc(size_t to, size_t size) {
    typedef void *(*call)(size_t, size_t);
    NEXT(call, "aligned_alloc");
    return is_refused() ? 0 : next(to, size);
}

int posix_memalign(void **block, size_t to, size_t size) {
    typedef int (*call)(void **, size_t, size_t);
    NEXT(call, "posix_memalign");
    return is_refused() ? ENOMEM : next(block, to, size);
}
"""

CONFLICT = "G (request -> F[0,2] grant) & G !grant & F request"

INPUTS = [
    ("solve --cert --core", CONFLICT),
    ("solve --core --workers 4", "p & !p & G q"),
    ("solve --finite", "F (p & Y q)"),
    ("check", None),
    ("check --workers 4", None),
    ("trace", "G (p -> F q)\n---\n" + '{"kind":"infinite","loop":[["q"]],"stem":[["p"],[]]}'),
    ("demo 4", ""),
    ("batch --workers 2", "p & !p\n\nG F p & G !p\np &\n"),
    ("system --cert", "!p\n---\nX p <-> !p\n---\nG F p"),
    ("system", "!p\n---\ntrue\n---\nG !p"),
    ("monitor", "H (grant -> Y O request)\n---\n" + '["request"]\n["grant"]\n'),
    ("depast", "G (grant -> Y O request)\n---\n" + '{"kind":"infinite","loop":[["grant"]],"stem":[["request"]]}'),
]


def run(words, text, refused=0, counter=None):
    """The status, which is 124 after LIMIT seconds, what is printed, and whether a request was refused."""
    there, here = os.pipe()
    os.dup2(here, 9, inheritable=True)
    os.close(here)
    added = {"LD_PRELOAD": counter, "REFUSED": str(refused)} if counter else {}
    try:
        done = subprocess.run([PROGRAM] + words.split(), input=text, stdout=subprocess.PIPE, stderr=subprocess.PIPE,
                              env={**os.environ, **added}, pass_fds=(9,), timeout=LIMIT)
        status, printed = done.returncode, done.stdout
    except subprocess.TimeoutExpired:
        status, printed = 124, b""
    os.close(9)
    with os.fdopen(there, "rb") as told:
        was = told.read() != b""
    return status, printed, was


def refuse_each(words, text, counter):
    """Refuses one request after the other, and returns how many answers were wrong."""
    status, printed, _ = run(words, text)
    number = answered = full = wrong = 0
    while True:
        number += 1
        found, shown, was = run(words, text, number, counter)
        if not was:
            break
        if (found, shown) == (7, b""):
            answered += 1
        elif (found, shown) == (status, printed):
            full += 1
        else:
            wrong += 1
            print("%s: refused request %d: status %d, %r" % (words, number, found, shown[:60]))
    print("%s: %d requests refused in turn, %d answered by want of memory, %d in full"
          % (words, number - 1, answered, full), flush=True)
    return wrong


def build_counter(folder):
    source, counter = folder + "/counter.c", folder + "/counter.so"
    with open(source, "w") as file:
        file.write(COUNTER)
    try:
        subprocess.run(["cc", "-O1", "-shared", "-fPIC", "-o", counter, source, "-ldl"], check=True)
    except (OSError, subprocess.CalledProcessError) as error:
        sys.exit("refused_memory.py: the counter is not built: %s" % error)
    return counter


def given_inputs(words):
    """The inputs that the words ask for, or none where the file can't be read."""
    if not words:
        certificate = run("solve --cert", CONFLICT.encode())[1].partition(b"\n")[2]
        checked = CONFLICT.encode() + b"\n---\n" + certificate
        return [(name, checked if text is None else text.encode()) for name, text in INPUTS]
    try:
        with open(words[1], "rb") as file:
            return [(words[0], file.read())]
    except OSError as error:
        print("refused_memory.py: %s" % error, file=sys.stderr)
        return None


def main(words):
    if len(words) not in (0, 2):
        print(__doc__, file=sys.stderr)
        return 2
    if subprocess.run([TOP + "/build", "black_main", "solve"], stdin=subprocess.DEVNULL).returncode != 0:
        return 125
    inputs = given_inputs(words)
    if inputs is None:
        return 2
    with tempfile.TemporaryDirectory() as folder:
        counter = build_counter(folder)
        return 1 if sum(refuse_each(name, text, counter) for name, text in inputs) else 0


if __name__ == "__main__":
    sys.exit(main(sys.argv[1:]))
