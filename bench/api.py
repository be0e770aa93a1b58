"""Times each public function of the root of rust/ beside the Rust crate's. usage: api.py CRATE FOLDER [MOST [WORD]]

CRATE is the folder of the source of the Rust crate wasmi_core 2.0.0; FOLDER, outside this repository, gets what is built. There are two
programs, one by cargo's default profile of a release and one linked as a whole. A row has the least nanoseconds of a turn of both crates,
and the instructions that valgrind counts where it is there. With MOST, the status is 1 if a row of a program, with WORD in its name, takes
more than MOST of the Rust crate's time and of its instructions, or more than what EXPECTED has for it. It is 1 too if answers differ."""
import glob
import os
import re
import shutil
import subprocess
import sys
import tempfile

HERE = os.path.dirname(os.path.realpath(__file__))
PROFILES = ("release", "linked")
COUNTED = 500
# Rows that may take more than MOST: docs/SPEED.md has the reasons. What isn't there takes more instructions alone, on a quiet machine.
EXPECTED = {
    "ElementSegment::new_0": 1.1, "ElementSegment::drop_items": 1.1,
    "FuncType::new_3_of_slices": 1.15, "FuncType::new_40": 1.15, "FuncType::new_40_of_slices": 1.3, "FuncType::new_refused": 1.15,
    "FuncType::clone_3": 1.2, "FuncType::cmp_40": 1.15, "FuncType::params": 1.15,
    "Memory::data": 1.2, "Memory::data_mut": 1.2,
    "Table::new_empty": 1.3, "Table::new_limited": 1.15, "Table::new_refused": 1.25, "Table::grow_refused": 1.1,
    "Table::copy_refused": 1.1, "Table::fill_raw_free": 1.2,
    "Fuel::consume_fuel_refused": 1.1, "Trap::downcast_ref": 1.1,
}


def build(crate, folder, profile):
    """The program by a profile of cargo."""
    patch = f"patch.crates-io.wasmi_core.path='{os.path.realpath(crate)}'"
    environment = dict(os.environ, CARGO_TARGET_DIR=f"{folder}/target", RUSTFLAGS="-Cllvm-args=-align-loops=64")
    subprocess.run(["cargo", "build", "--offline", "--profile", profile, "--config", patch], cwd=f"{HERE}/api", env=environment, check=True)
    return f"{folder}/target/{profile}/api"


def output(*command):
    return subprocess.run(command, stdout=subprocess.PIPE, text=True, check=True).stdout


def times(program, word):
    """The nanoseconds of both crates for each row."""
    lines = (line.split() for line in output(program, "time", word).splitlines())
    return {name: (float(theirs), float(here)) for name, theirs, here in lines}


def instructions(program, word):
    """The instructions of a turn of both crates for each row: what valgrind writes at each call of `mark`, every second time."""
    if not shutil.which("valgrind"):
        return {}
    with tempfile.TemporaryDirectory() as room:
        options = ("--quiet", "--tool=callgrind", f"--callgrind-out-file={room}/out", "--dump-before=api::mark")
        names = output("valgrind", *options, program, "count", word).split()
        parts = sorted(glob.glob(f"{room}/out.*"), key=lambda it: int(it.rsplit(".", 1)[1]))
        counted = []
        for part in parts[1::2]:
            with open(part) as it:
                counted.append(int(re.search(r"(?m)^(?:totals|summary): (\d+)", it.read())[1]) / COUNTED)
    assert len(counted) == 2 * len(names), "valgrind wrote no part for each call of mark"
    return {name: tuple(counted[2 * i:2 * i + 2]) for i, name in enumerate(names)}


def main(crate, folder, most=None, word=""):
    above = []
    for profile in PROFILES:
        program = build(crate, os.path.realpath(folder), profile)
        timed, counts = times(program, word), instructions(program, word)
        assert timed, f"no row has {word} in its name"
        print(f"| {profile} | crate, ns | **here** | here / crate | crate, instructions | here | here / crate |\n|---|---|---|---|---|---|---|")
        for name, (theirs, here) in timed.items():
            counted = counts.get(name, (0, 0))
            ratios = [here / theirs] + [counted[1] / it for it in counted[:1] if it]
            shown = f"{counted[0]:.1f} | {counted[1]:.1f} | {ratios[-1]:.2f}" if counts else "| |"
            print(f"| `{name}` | {theirs:.2f} | **{here:.2f}** | {ratios[0]:.2f} | {shown} |")
            if most and min(ratios) > max(float(most), EXPECTED.get(name, 0)):
                above.append(f"{profile} {name}")
        print()
    sys.exit(f"slower than the crate: {', '.join(above)}" if above else 0)


if __name__ == "__main__":
    if len(sys.argv) not in (3, 4, 5):
        sys.exit(__doc__)
    main(*sys.argv[1:])
