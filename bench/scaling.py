#!/usr/bin/env python3
"""Shows how the processor time of a program that replays scripts grows with the script, kind by kind.

    python3 bench/scaling.py PROGRAM [OTHER [RUNS]]

Prints a table: the least user and system time of RUNS (15) on a script of a tenth of the greatest size and on one of the greatest, and
the second's share of the first; with OTHER, a program that has to print the same, its times and PROGRAM's share of them. The last line
counts the kinds that take more than 14 times as long for ten times the script, or more than 1.2 times as long as OTHER, or than what
SLOWER has for the kind; it ends with 1 where there is one.
"""

import os
import sys
import tempfile

sys.dont_write_bytecode = True
from replay import KINDS, LIMIT, asked, output, script, seconds

MOST_GROWTH, MOST_SHARE = 14, 1.2
# Words are found byte by byte (docs/DECISIONS.md, 45), so a script of spaces takes longer than over the Rust crate's program: 2.1 and
# 1.7 times on one Xeon, 2.9 and 2.1 times on a later one.
SLOWER = {"spaces": 3.2, "blank lines": 1.6, "spaces between words": 2.5, "one long write": 1.25, "one long segment": 1.25}


def lines(head, line, most=None):
    """Returns what makes a script of a size: a head, and a line as often as it fits; at most so often in the greatest script."""
    return lambda size: script(head, line, most and most * size // LIMIT, size)


def turns(head, *of_turn):
    """Returns what makes a script of a size: a head, and lines in turn; I stands for the number of the turn, J for it below 1,024."""
    def made(size):
        texts, length, turn = [head], len(head), 0
        while True:
            text = "".join(f"{line}\n" for line in of_turn).replace("I", str(turn)).replace("J", str(turn % 1024))
            length, turn = length + len(text), turn + 1
            if length > size:
                return "".join(texts).encode()
            texts.append(text)
    return made


def halves(head, first, *then):
    """Returns what makes a script of a size: a head, half of it one line, and half of it others in turn."""
    def made(size):
        front = script(head, first, None, size // 2).decode()
        return turns(front, *then)(size)
    return made


def words(head, front, word, share=1):
    """Returns what makes a script of a size: a head, and one line of a word as often as it fits a share of the size."""
    def made(size):
        line = head + front
        return (line + word * ((int(size * share) - len(line) - 1) // len(word)) + "\n").encode()
    return made


def answered(size):
    """A third of a script lists answers, and in the rest memories ask for them."""
    return turns(words("", "answers", " permit deny complain error", 1 / 3)(size).decode(), "memory 0 0 0 32")(size)


SCALING = {name: lines(*kind) for name, kind in KINDS.items()} | {
    "pool, memories, then parts": halves("tenants 1 0 0\n", "memory 0 0 0 32", "as 0"),
    "pool, memories, then calls": halves("tenants 2 0 0\n", "memory 0 0 0 32", "as 1", "left", "as 0", "left"),
    "pool, tables, then parts": halves("tenants 2 0 0\n", "table func 0 0 32 func 0", "as 1", "as 0"),
    "pool, tables, then calls": halves("tenants 2 0 0\n", "table func 0 0 32 func 0", "as 1", "left", "as 0", "left"),
    "pool, 1,024 tenants in turn": turns("tenants 1024 0 0\n", "as J", "memory 0 0 0 32"),
    "pool, one call a part": turns("tenants 2 0 0\n", "as 0", "left", "as 1", "left"),
    "pool, growths a part": turns("tenants 2 9999999 0\nmemory 0 none 0 32\n", "as 0", "grow 0 1", "as 1", "grow 0 1"),
    "memories made and dropped": turns("", "memory 0 0 0 32", "drop memory I"),
    "tables made and dropped": turns("", "table func 0 0 32 func 0", "drop table I"),
    "tables": lines("", "table func 0 0 32 func 0"),
    "segments": lines("", "segment func 1 2 3"),
    "globals": lines("", "global i64 var 81985529216486895 0"),
    "listed answers": answered,
    "quota": lines("quota 0 0\n", "memory 0 0 0 32"),
    "one long write": words("memory 9 9 16 32\n", "write 0 0", " 7"),
    "one long segment": words("", "segment func", " 7"),
    "growths of a memory by 1": lines("memory 0 none 0 32\n", "grow 0 1"),
    "growths of a table by 1": lines("table func 0 none 32 func 0\n", "tgrow 0 1 func 7"),
    "growths of a lent memory by 1": lines("region 200000 7\nlent 0 none 0 32\n", "grow 0 1"),
    "charged growths by 1": lines("meter on 64\nfuel 9999999\nmemory 0 none 0 32\n", "grow 0 1"),
    "spaces": words("", "", " "),
    "blank lines": lines("", ""),
    "spaces between words": lines("meter on 64\n", "fuel" + " " * 60 + "1" + " " * 30),
    "leading zeros": lines("meter on 64\n", "fuel " + "0" * 90 + "1"),
    "one number of zeros": words("meter on 64\n", "fuel ", "0"),
}


def least(programs, path, runs):
    """Returns the least time of some runs of each program on a script, in milliseconds; a run above a second is the only one."""
    times = [1000 * seconds(it, path) for it in programs]
    for _ in range(runs - 1 if max(times) < 1000 else 0):
        times = [min(best, 1000 * seconds(it, path)) for best, it in zip(times, programs)]
    return times


def measured(programs, make, path, runs):
    """Returns the times of each program on a script of a tenth of the greatest size and on the greatest."""
    tenth_and_whole = []
    for size in (LIMIT // 10, LIMIT):
        with open(path, "wb") as to:
            to.write(make(size))
        if len({output(it, path) for it in programs}) > 1:
            sys.exit("the programs print different texts")
        tenth_and_whole.append(least(programs, path, runs))
    return list(zip(*tenth_and_whole))


def main():
    programs, runs = asked(2, 15)
    other = " the other, a tenth, ms | greatest, ms | growth | here / the other |" if len(programs) == 2 else ""
    print(f"| script | a tenth, ms | greatest, ms | growth |{other}\n|{'---|' * (4 + other.count('|'))}")
    above = 0
    with tempfile.TemporaryDirectory() as folder:
        for name, make in SCALING.items():
            rows = measured(programs, make, os.path.join(folder, "script"), runs)
            cells = [f"{tenth:.1f} | {whole:.1f} | {whole / tenth:.1f}" for tenth, whole in rows]
            shares = [rows[0][1] / rows[1][1]] if len(rows) == 2 else []
            above += rows[0][1] / rows[0][0] > MOST_GROWTH or any(it > SLOWER.get(name, MOST_SHARE) for it in shares)
            print("| " + " | ".join([name, *cells, *(f"{it:.2f}" for it in shares)]) + " |", flush=True)
    print(f"{len(SCALING)} kinds, {above} above {MOST_GROWTH} times or {MOST_SHARE} of the other, {len(SLOWER)} by bounds of their own")
    sys.exit(above > 0)


if __name__ == "__main__":
    main()
