"""Measures, and prints the tables whose cells records/speed.tsv has. usage: measure.py FOLDER [RUNS [WORD]]

FOLDER is what build.py made. Each link is run RUNS times (2 where it is left out), for the rows with WORD in their names, and each
cell is the least time of all."""
import glob
import math
import subprocess
import sys


def measured(folder, runs, word):
    """The least times of each row, by its kind and name; and the rows whose answers differ from the crate's."""
    least, differ = {}, set()
    for _ in range(runs):
        for link in sorted(glob.glob(f"{folder}/program/links/*")):
            for line in subprocess.run([link, word], capture_output=True, text=True, check=True).stdout.splitlines():
                kind, name, *cells = line.split()
                if cells[-1] == "DIFFERS":
                    differ.add(name)
                    cells.pop()
                times = [float(it) for it in cells]
                least[kind, name] = [min(both) for both in zip(times, least.get((kind, name), times))]
    return least, differ


def mean(ratios):
    return math.exp(sum(map(math.log, ratios)) / len(ratios))


def print_vectors(title, rows):
    """The crate over `V128` and over words, and here, of each row, with what here is of the words and of the better of both."""
    if not rows:
        return
    print(f"| {title} | crate, `v128` | crate, `words` | **here** | here / `words` | here / the better |\n|---|---|---|---|---|---|")
    for name, (vectors, words, here) in rows.items():
        print(f"| `{name}` | {vectors:.2f} | {words:.2f} | **{here:.2f}** | {here / words:.2f} | {here / min(vectors, words):.2f} |")
    of_words = mean([here / words for _, words, here in rows.values()])
    of_better = mean([here / min(vectors, words) for vectors, words, here in rows.values()])
    print(f"| **geometric mean** | | | | **{of_words:.2f}** | **{of_better:.2f}** |\n")


def print_others(title, rows, other="crate", here_is="here"):
    if not rows:
        return
    print(f"| {title} | {other} | **{here_is}** | {here_is} / {other} |\n|---|---|---|---|")
    for name, (theirs, here) in rows.items():
        print(f"| `{name}` | {theirs:.2f} | **{here:.2f}** | {here / theirs:.2f} |")
    print()


def main(folder, runs="2", word=""):
    least, differ = measured(folder, int(runs), word)
    of = lambda *kinds: {name: times for (kind, name), times in least.items() if kind in kinds}
    print_vectors("instruction, ns a vector", of("lanewise", "widening", "load", "store"))
    print_vectors("third operand, ns a vector", of("third"))
    numbers = of("number_load", "number_store")
    print_others("load or store of a number, ns", {name: (min(it[:2]), it[2]) for name, it in numbers.items()})
    print_others("work, ns", of("work"))
    print_others("run, ns a call", of("run"))
    print_others("one call, ns", of("single"), "`run`", "`step`")
    print_others("list of one call, ns", of("into"), "`run`", "`run_into`")
    sys.exit(f"answers that differ from the crate's: {' '.join(sorted(differ))}" if differ else 0)


if __name__ == "__main__":
    if len(sys.argv) < 2:
        sys.exit(__doc__)
    main(*sys.argv[1:])
