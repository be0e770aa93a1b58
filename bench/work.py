#!/usr/bin/env python3
"""Counts the instructions of a program that replays scripts, and compares them with the work that a script asks for, kind by kind.

    python3 bench/work.py PROGRAM [WORD]
    python3 bench/work.py rust [WORD]

The second builds the program of the crate in rust/. A unit of work is a call, a byte that a call reads or writes, or a byte of the script
or of what is printed. valgrind counts. Prints a table of the kinds with WORD in their names: the instructions at each size, in millions,
less those of the script's head; what a unit takes at the greatest size, and at most at one of them; and how many times as many
instructions a unit of a greater script takes as one of a smaller. The status is 1 if that is above 1.05, if calls with a meter write bytes
that the fuel doesn't pay, or if nothing was counted.
"""

import pathlib
import re
import shutil
import subprocess
import sys
import tempfile

sys.dont_write_bytecode = True
from replay import LIMIT
from libraries import TOP, other_text_of
from scaling import SCALING, turns

# A script of the least size is its head, with no long line.
LEAST, SIZES = 24, [LIMIT >> shift for shift in range(5, -1, -1)]
# Lists that double take up to 1.045.
MOST_GROWTH = 1.05
HEADERS = ("meter", "region", "quota", "answers", "tenants", "as")
REFUSALS = ("no", "error")


def charged(price, head, call, refused):
    """Returns what makes a script of a size: in each turn there is fuel for one call, then for no other one."""
    return turns(f"meter on 64\n{head}\n", f"fuel {price}", call, refused, "left")


# Calls that write many bytes at a time, for which fuel is taken.
CHARGED = {
    "charged fills of a memory": charged(64, "memory 1 1 16 32", "mfill 0 0 7 4096", "mfill 0 0 7 64"),
    "charged copies of a memory": charged(64, "memory 1 1 16 32", "mcopy 0 8 0 0 4096", "mcopy 0 0 0 8 64"),
    "charged copies of a data segment": charged(16, "memory 1 1 16 32\ndata" + 1024 * " 7", "minit 0 0 0 0 1024", "minit 0 0 0 0 64"),
    "charged growths of a memory": charged(1, "memory 0 none 0 32", "grow 0 64", "grow 0 64"),
    "charged fills of a table": charged(64, "table func 1024 none 32 func 7", "fill 0 0 func 9 1024", "fill 0 0 func 9 16"),
    "charged copies of a table": charged(32, "table func 1024 none 32 func 7", "copy 0 8 0 0 512", "copy 0 0 0 8 16"),
    "charged copies of a segment": charged(8, "table func 1024 none 32 func 7\nsegment func" + 128 * " 7", "init 0 0 0 0 128", "init 0 0 0 0 16"),
    "charged growths of a table": charged(1, "table func 0 none 32 func 7", "tgrow 0 16 func 9", "tgrow 0 16 func 9"),
}


def built():
    """Builds the program of the crate in rust/, and returns it."""
    words = ["--quiet", "--offline", "--release", "--bin", "wasmi_replay", "--manifest-path", TOP / "rust/Cargo.toml", "--target-dir", TOP / "rust/target"]
    if subprocess.run(["cargo", "build", *words]).returncode:
        sys.exit("nothing was counted: the crate in rust/ isn't built")
    return TOP / "rust/target/release/wasmi_replay"


def moved(words):
    """Returns the bytes that a call writes for fuel, where there is a meter, and those that it reads, or writes without. What is made is empty, or in the head."""
    match words:
        case ["grow", _, pages]:    # in the scripts here a page of a memory that grows is a byte
            return int(pages), 0
        case ["tgrow", _, items, *_]:
            return 4 * int(items), 0
        case ["mfill", *_, count]:
            return int(count), 0
        case ["fill", *_, count]:
            return 4 * int(count), 0
        case ["mcopy" | "minit", *_, count]:
            return int(count), int(count)
        case ["copy" | "init", *_, count]:
            return 4 * int(count), 4 * int(count)
        case ["read", *_, count]:
            return 0, int(count)
        case ["write", _, _, *given]:
            return 0, len(given)
        case ["load" | "store", *_]:
            return 0, 8
        case ["get" | "tset", *_]:
            return 0, 4
    return 0, 0


def work(script, printed):
    """Returns the units of work of a script, the bytes that it writes for fuel, and the most that the fuel pays."""
    calls = [words for line in script.split("\n") if (words := line.split()) and words[0] not in HEADERS]
    replies = printed.split("\n")
    if len(replies) <= len(calls):
        sys.exit(f"nothing was counted: {len(replies) - 1} replies to {len(calls)} calls")
    done = [(words, reply) for words, reply in zip(calls, replies) if not reply.startswith(REFUSALS)]
    pairs = [moved(words) for words, _ in done]
    of_fuel = [paid for paid, _ in pairs if paid]
    units = len(script) + len(printed) + len(calls) + sum(map(sum, pairs))
    given = sum(int(words[1].lstrip("0") or 0) for words, _ in done if words[0] == "fuel")
    left = sum(int(reply.split()[1]) for words, reply in done if words[0] == "left")
    meter = re.match(r"meter on (\d+)", script)
    # A charge is rounded down to a whole fuel.
    most = int(meter[1]) * (given - left) + (int(meter[1]) - 1) * len(of_fuel) if meter else sum(of_fuel)
    return units, sum(of_fuel), most


def counted(program, script, folder):
    """Returns the instructions that a program executes on a script, and what it prints. Both are files, since a pipe gives other parts each time."""
    (folder / "script").write_bytes(script)
    options = ["--tool=cachegrind", "--cache-sim=no", "--cachegrind-out-file=/dev/null", f"--log-file={folder}/log"]
    with open(folder / "script", "rb") as given, open(folder / "printed", "wb") as to:
        status = subprocess.run(["valgrind", *options, program], stdin=given, stdout=to).returncode
    found = re.search(r"refs:\s+([\d,]+)", (folder / "log").read_text())
    if status or not found:
        sys.exit(f"{program} ended with status {status}, or valgrind counted nothing")
    return int(found[1].replace(",", "")), (folder / "printed").read_text()


def sample(program, name, size, folder):
    """Returns the instructions and the units of a script, or ends where fuel doesn't pay what was written."""
    script = (SCALING | CHARGED)[name](size)
    instructions, printed = counted(program, script, folder)
    units, written, most = work(script.decode(), printed)
    if written > most or name in CHARGED and size > LEAST and not written:
        sys.exit(f"{name}: {written:,} bytes are written for fuel that pays at most {most:,}")
    return instructions, units


def row(program, name, folder):
    """Returns the instructions of each size and what a unit takes there, both less those of the least script."""
    (least, none), *samples = [sample(program, name, size, folder) for size in (LEAST, *SIZES)]
    counts, units = [it - least for it, _ in samples], [it - none for _, it in samples]
    # Each byte of a script has to be looked at.
    if any(count < size - LEAST for count, size in zip(counts, SIZES)):
        sys.exit(f"{name}: nothing was counted: fewer instructions than bytes of the script")
    return counts, [count / unit for count, unit in zip(counts, units)]


def growth(shares):
    """Returns how many times as much a share is, at most, as an earlier one."""
    return max(late / early for at, late in enumerate(shares) for early in shares[:at])


def main():
    if not 2 <= len(sys.argv) <= 3:
        sys.exit(__doc__)
    program, names = sys.argv[1], [it for it in SCALING | CHARGED if sys.argv[2:3] == [] or sys.argv[2] in it]
    lacks = other_text_of(program) or (None if shutil.which("valgrind") else "there is no valgrind")
    if lacks or not names:
        sys.exit(f"{sys.argv[0]}: {lacks or 'nothing was counted: no kind has this word'}")
    program = built() if program == "rust" else program
    print("| script | " + " | ".join(f"{size >> 10} KiB" for size in SIZES) + f" | a unit | at most | growth |\n|{'---|' * (len(SIZES) + 4)}")
    above, greatest = 0, 0
    with tempfile.TemporaryDirectory() as folder:
        for name in names:
            counts, shares = row(program, name, pathlib.Path(folder))
            above, greatest = above + (growth(shares) > MOST_GROWTH), max(greatest, *shares)
            cells = [*(f"{it / 1e6:.2f}" for it in counts), f"{shares[-1]:.2f}", f"{max(shares):.2f}", f"{growth(shares):.3f}"]
            print(f"| {name} | {' | '.join(cells)} |", flush=True)
    print(f"{len(names)} kinds, at most {greatest:.1f} instructions a unit, {above} above {MOST_GROWTH} times")
    sys.exit(above > 0)


if __name__ == "__main__":
    main()
