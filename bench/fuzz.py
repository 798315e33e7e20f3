#!/usr/bin/env python3
"""Fuzzes the commands of `black` with AFL++, each with its own grammar as a dictionary.

    fuzz.py MINUTES [COMMAND..]        the commands are solve, check, trace, system, monitor, and each is fuzzed for as many minutes

The program is built of the proved crates, as `./black` builds it, once more with coverage in it: the module that the kit's clang is
given is kept, and compiled with a call at each branch. A run that ends by a signal or has a status that the command does not have is
a finding; one of more than ten seconds is counted. What is found stands under the folder that is printed; the status is 1 where
something was found. Needs Debian's `afl++` and `gcc`. Not a part of the gate. SHARE=idle gives it only what the processors have left.
"""
import glob
import os
import shutil
import subprocess
import sys
import tempfile
import time

TOP = os.path.dirname(os.path.dirname(os.path.abspath(__file__)))
KIT = os.path.dirname(os.path.dirname(os.path.realpath(shutil.which("rt") or "rt")))

FORMULA = "true false ! & | -> <-> ( ) X wX F G U R W M Y Z O H S T X[2] Y[3] F[0,2] G[1,4] O[0,3] H[0,5] p q {".split()
TRACE = ['{"kind":"infinite","loop":[["p"]],"stem":[]}', '{"kind":"finite","states":[[]]}', '"kind"', '"loop"', '"stem"', '"states"', '"p"', "[]", "[[", "]]", "\\u0070", ":", ","]
CERTIFICATE = ["ltlcert 1 infinite 0\n", "ltlcert 2 finite 1\n", "close ", "d ", " 0 ", " 0\n", "-1 ", "16777216", "4294967296", "\n"]
DICTIONARIES = {
    "solve": FORMULA,
    "check": FORMULA + ["\n---\n"] + CERTIFICATE,
    "trace": FORMULA + ["\n---\n"] + TRACE,
    "system": FORMULA + ["\n---\n"],
    "monitor": [it for it in FORMULA if it not in "X wX F G U R W M".split()] + ["\n---\n", "[]\n", '["p"]\n', '["p","q"]\n'],
}
WORDS = {
    "solve": ["solve", "--depth", "6", "--cert", "--core"],
    "check": ["check"],
    "trace": ["trace"],
    "system": ["system", "--depth", "6", "--cert"],
    "monitor": ["monitor"],
}
STATUSES = {
    "solve": {3, 4, 7, 10, 20, 30},
    "check": {0, 1, 3, 4, 7},
    "trace": {0, 1, 3, 4, 7},
    "system": {0, 1, 3, 4, 7, 20, 30},
    "monitor": {0, 1, 3, 4, 7},
}
SEEDS = {
    "solve": ["p", "G F p & G !p", "G(r -> F[0,3] g) & F r", "p S q & Y O p", "(p U q) <-> (q R p)", "!wX p | X[2] q"],
    "trace": ['G(r -> F[0,3] g)\n---\n{"kind":"finite","states":[["r"],[],["g"]]}', 'p S q\n---\n{"kind":"infinite","loop":[["g","r"]],"stem":[["r"]]}'],
    "system": ["!p\n---\nX p <-> !p\n---\nG F p", "p\n---\nX p\n---\nF !p"],
    "monitor": ['H(g -> O[0,3] r)\n---\n["r"]\n[]\n["g"]\n'],
}


def instrumented(folder):
    """The program with coverage in it, and the program as it is."""
    kit = f"{folder}/kit"
    os.makedirs(f"{kit}/bin")
    os.makedirs(f"{kit}/toolchain/bin")
    for it in os.listdir(KIT):
        if it not in ("bin", "toolchain"):
            os.symlink(f"{KIT}/{it}", f"{kit}/{it}")
    for it in os.listdir(f"{KIT}/bin"):
        if it in ("rt", "rtlib.py"):
            shutil.copy(f"{KIT}/bin/{it}", f"{kit}/bin/{it}")
        else:
            os.symlink(f"{KIT}/bin/{it}", f"{kit}/bin/{it}")
    os.symlink(f"{KIT}/toolchain/lib", f"{kit}/toolchain/lib")
    for it in os.listdir(f"{KIT}/toolchain/bin"):
        if it != "clang":
            os.symlink(f"{KIT}/toolchain/bin/{it}", f"{kit}/toolchain/bin/{it}")
    clang = f"{kit}/toolchain/bin/clang"
    with open(clang, "w") as it:
        it.write(f'#!/bin/sh\n[ ! -f module.bc ] || cp module.bc {folder}/module.bc\nexec {KIT}/toolchain/bin/clang "$@"\n')
    os.chmod(clang, 0o755)
    out = f"{TOP}/crates/black_main/out"
    for it in ("black_main", "black_main.stamp"):
        if os.path.exists(f"{out}/{it}"):
            os.remove(f"{out}/{it}")
    subprocess.run([sys.executable, f"{kit}/bin/rt", "run"], cwd=f"{TOP}/crates/black_main", stdin=subprocess.DEVNULL, capture_output=True)
    if not os.path.exists(f"{folder}/module.bc"):
        sys.exit("the program was not built: prove its crates first, by ./black")
    coverage = ["-fsanitize-coverage=trace-pc-guard", "-O2", "-fPIE", "-c", "-x", "ir", f"{folder}/module.bc", "-o", f"{folder}/module.o"]
    subprocess.run([f"{KIT}/toolchain/bin/clang", "--target=x86_64-unknown-linux-gnu", "-march=x86-64", "--no-default-config", *coverage], check=True)
    libraries = [f"{KIT}/c/libos_c.a", f"{KIT}/c/liblibc_c.a", "/usr/lib/afl/afl-compiler-rt-64.o", "-lpthread", "-ldl", "-lm"]
    subprocess.run(["gcc", "-Wl,--gc-sections", "-o", f"{folder}/black", f"{folder}/module.o", *libraries], check=True)
    shutil.copy(f"{out}/black_main", f"{folder}/plain")


def prepare(folder, command):
    """Writes the dictionary and the seeds, and returns where they are."""
    home = f"{folder}/{command}"
    os.makedirs(f"{home}/seeds")
    with open(f"{home}/words.dict", "w") as it:
        for word in DICTIONARIES[command]:
            quoted = "".join(c if " " <= c <= "~" and c not in '"\\' else "\\x%02x" % ord(c) for c in word)
            it.write(f'"{quoted}"\n')
    seeds = SEEDS.get(command) or certificates(folder)
    for number, seed in enumerate(seeds):
        with open(f"{home}/seeds/{number}", "w") as it:
            it.write(seed)
    return home


def certificates(folder):
    """Inputs of `check`: small formulas with the certificates that the program prints."""
    texts = []
    for text, kind in (("false", []), ("wX false", []), ("G F p & G !p", [])):
        made = subprocess.run([f"{folder}/plain", "solve", "--cert", *kind], input=text, capture_output=True, text=True).stdout
        texts.append(f"{text}\n---\n" + made.partition("\n")[2])
    return texts


def start(folder, command, minutes):
    """Starts a fuzzer on the command."""
    home = prepare(folder, command)
    codes = {**os.environ, "AFL_SKIP_CPUFREQ": "1", "AFL_NO_UI": "1", "AFL_NO_AFFINITY": "1", "AFL_I_DONT_CARE_ABOUT_MISSING_CRASHES": "1", "AFL_QUIET": "1"}
    words = ["afl-fuzz", "-i", f"{home}/seeds", "-o", f"{home}/out", "-x", f"{home}/words.dict", "-V", str(60 * minutes), "-t", "10000", "-m", "2000", "--", f"{folder}/black", *WORDS[command]]
    is_idle = os.environ.get("SHARE") == "idle"
    words = ["chrt", "--idle", "0", *words] if is_idle else words
    how = {"stdin": subprocess.DEVNULL, "stdout": open(f"{home}/log", "w"), "stderr": subprocess.STDOUT, "start_new_session": True}
    fuzzer = subprocess.Popen(words, env=codes, **how)
    if is_idle and os.path.exists(f"/proc/{fuzzer.pid}/autogroup"):
        # Linux shares the processors between sessions first.
        with open(f"/proc/{fuzzer.pid}/autogroup", "w") as it:
            it.write("19")
    return fuzzer


def said(home):
    """What the fuzzer says of itself."""
    with open(f"{home}/out/default/fuzzer_stats") as it:
        return dict(map(str.strip, line.split(":", 1)) for line in it if ":" in line)


def findings(folder, command):
    """The inputs that the fuzzer found wrong, and those of its queue whose status the command does not have."""
    home = f"{folder}/{command}"
    wrong = glob.glob(f"{home}/out/default/crashes/id*")
    for file in glob.glob(f"{home}/out/default/queue/id*"):
        with open(file, "rb") as it:
            ran = subprocess.run([f"{folder}/plain", *WORDS[command]], stdin=it, stdout=subprocess.DEVNULL, stderr=subprocess.DEVNULL, timeout=60)
        if ran.returncode not in STATUSES[command]:
            wrong.append(file)
    return wrong


def main():
    if len(sys.argv) < 2 or not sys.argv[1].isdecimal() or not all(it in WORDS for it in sys.argv[2:]):
        print(__doc__, file=sys.stderr)
        return 2
    minutes, commands = int(sys.argv[1]), sys.argv[2:] or list(WORDS)
    folder = tempfile.mkdtemp(prefix="black-fuzz-")
    print(f"work in {folder}", flush=True)
    instrumented(folder)
    running = [start(folder, command, minutes) for command in commands]
    for it in running:
        it.wait()
    count = 0
    for command in commands:
        wrong, told = findings(folder, command), said(f"{folder}/{command}")
        count += len(wrong)
        slow = len(glob.glob(f"{folder}/{command}/out/default/hangs/id*"))
        reached = f"{told.get('corpus_count')} inputs kept, {told.get('bitmap_cvg')} of the branches"
        print(f"{command}: {told.get('execs_done')} runs, {reached}, {slow} of more than ten seconds, {len(wrong)} findings", flush=True)
        for it in wrong:
            print(f"    {it}")
    return 1 if count else 0


if __name__ == "__main__":
    sys.exit(main())
