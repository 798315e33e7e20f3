"""Clause lists that grow with a size, as lists of numbers: a letter, or less than 0 where it is negated."""
import random


def random_clauses(letters, seed):
    """Clauses of three literals, 4.2 a letter: near where half of such lists can be satisfied."""
    rng = random.Random(seed)
    clauses = [[l if rng.random() < 0.5 else -l for l in rng.sample(range(1, letters + 1), 3)]
               for _ in range(letters * 42 // 10)]
    return letters, clauses


def chain(letters):
    """Each letter forces the next, and the first one is true."""
    return letters, [[-i, i + 1] for i in range(1, letters)] + [[1]]


def pigeons(holes):
    """One pigeon more than there are holes, no two in one: letter p * holes + h where pigeon p is in hole h."""
    at = [[p * holes + h + 1 for h in range(holes)] for p in range(holes + 1)]
    apart = [[-at[p][h], -at[q][h]] for h in range(holes) for p in range(holes + 1) for q in range(p)]
    return holes * (holes + 1), at + apart


def dimacs(letters, clauses):
    lines = ["p cnf %d %d" % (letters, len(clauses))]
    return "\n".join(lines + [" ".join(map(str, clause + [0])) for clause in clauses]) + "\n"


def one_question(letters, clauses):
    """What `black_bench solver` reads: the clauses, and then one question without assumptions."""
    lines = [str(letters)] + [" ".join(map(str, clause + [0])) for clause in clauses]
    return "\n".join(lines + ["? 0"]) + "\n"
