#!/usr/bin/env python3
"""Times two programs that replay scripts, in turns, by processor time on the greatest script of each of 15 kinds.

    python3 bench/replay.py PROGRAM OTHER [RUNS]

Prints a table: the least user and system time of RUNS (9) of each, and PROGRAM's share of OTHER's. Their outputs must be equal.
"""

import hashlib
import os
import pathlib
import subprocess
import sys
import tempfile

sys.dont_write_bytecode = True
sys.path.append(str(pathlib.Path(__file__).resolve().parents[1] / "tools"))
from libraries import other_text_of

# The greatest script that a replay takes, in bytes.
LIMIT = 1_048_576

# Of each kind: what stands before its line, its line, and how often the line stands at most.
KINDS = {
    "left": ("meter on 64\n", "left", None),
    "fuel": ("meter on 64\n", "fuel 1", None),
    "memory": ("", "memory 0 0 0 32", None),
    "grow": ("memory 1 4 16 32\n", "grow 0 5", None),
    "read, 9 bytes": ("memory 1 4 16 32\n", "read 0 0 9", None),
    "read, 64 KiB": ("memory 1 4 16 32\n", "read 0 0 65536", 60),
    "write": ("memory 1 4 16 32\n", "write 0 8 1 2 3 4 5 6 7 8", None),
    "load": ("memory 1 4 16 32\n", "load i64_load32_s 0 8 8", None),
    "store": ("memory 1 4 16 32\n", "store store64 0 8 8 81985529216486895", None),
    "get": ("table func 64 none 32 func 7\n", "get 0 63", None),
    "tset": ("table func 64 none 32 func 7\n", "tset 0 1 func 9", None),
    "copy": ("table func 64 none 32 func 7\n", "copy 0 8 0 0 32", None),
    "gget": ("global i64 var 81985529216486895 0\n", "gget 0", None),
    "show": ("set 1 81985529216486895 7\n", "show 1", None),
    "binary": ("set 1 81985529216486895 7\n", "binary i8x16_add 2 1 1", None),
}


def script(head, line, most, size=LIMIT):
    """Returns the head and the line as often as a script of a size holds it."""
    count = (size - len(head)) // (len(line) + 1)
    return (head + f"{line}\n" * min(count, most or count)).encode()


def seconds(program, path):
    """Returns the user and system time of one run of a program on a script, whose output goes nowhere."""
    with open(path, "rb") as given, open(os.devnull, "wb") as nowhere:
        child = subprocess.Popen([program], stdin=given, stdout=nowhere)
        _, status, used = os.wait4(child.pid, 0)
    child.returncode = os.waitstatus_to_exitcode(status)
    if child.returncode:
        sys.exit(f"{program} ended with status {child.returncode}")
    return used.ru_utime + used.ru_stime


def output(program, path):
    """Returns the checksum of what a program prints of a script."""
    with open(path, "rb") as given:
        child = subprocess.Popen([program], stdin=given, stdout=subprocess.PIPE)
        printed = hashlib.sha256()
        while piece := child.stdout.read(1 << 20):
            printed.update(piece)
        child.wait()
    return printed.digest()


def asked(least, runs):
    """The programs and the number of runs that are asked for. A program that a build left here has to be of the sources as they are."""
    if not least <= len(sys.argv) <= 4:
        sys.exit(sys.modules["__main__"].__doc__)
    programs = sys.argv[1:3]
    if stale := [why for why in map(other_text_of, programs) if why]:
        sys.exit(f"{sys.argv[0]}: {stale[0]}")
    return programs, int(sys.argv[3]) if len(sys.argv) == 4 else runs


def main():
    programs, runs = asked(3, 9)
    print("| script | lines | here, ms | the other, ms | here / the other |\n|---|---|---|---|---|")
    product = 1.0
    with tempfile.TemporaryDirectory() as folder:
        path = os.path.join(folder, "script")
        for name, kind in KINDS.items():
            text = script(*kind)
            with open(path, "wb") as to:
                to.write(text)
            if output(programs[0], path) != output(programs[1], path):
                sys.exit(f"{name}: the programs print different texts")
            here, other = (min(of) for of in zip(*([seconds(it, path) for it in programs] for _ in range(runs))))
            product *= here / other
            print(f"| `{name}` | {text.count(10):,} | {1000 * here:.1f} | {1000 * other:.1f} | {here / other:.2f} |", flush=True)
    print(f"| geometric mean | | | | {product ** (1 / len(KINDS)):.2f} |")


if __name__ == "__main__":
    main()
