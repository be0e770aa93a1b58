"""Looks whether each jump of an archive or a program lies within 32 bytes, as tools/archive and bench/build.py have the compiler place it: some
processors of Intel decode a jump that crosses a multiple of 32 bytes, or ends at one, each time.

usage: python3 jumps.py ARCHIVE | PROGRAM NAME: the last line is `N jumps, M across`; the status is 1 if one is across, or if there is none at all. Of the
objects in an archive it takes those that have a function of include/numbers.tsv: the kit's C isn't assembled so. Of a program it takes the functions
whose names begin with NAME. An indirect jump, and one of an archive to a place that the linker decides, isn't counted."""
import pathlib
import re
import subprocess
import sys

FUNCTIONS = pathlib.Path(__file__).resolve().parents[1] / "include/numbers.tsv"
WITHIN = 32
ALIGNED = re.compile(r"^ *\d+ (.+?) +[0-9a-f]{8,} .* 2\*\*(\d+)", re.M)
# The address, the bytes, and a jump to a place of the section; behind one that the linker decides stands a relocation.
JUMP = re.compile(r"^ *([0-9a-f]+):\t((?:[0-9a-f]{2} )+) *\t(?:\w+ )*j\w+ +[0-9a-f]+ <.*>$", re.M)


def functions(program, name):
    """What objdump says of a program, with the code of the functions whose names begin so."""
    said = subprocess.run(["objdump", "-hdrwC", program], capture_output=True, text=True, check=True).stdout
    return re.sub(rf"(?m)^[0-9a-f]+ <(?!{re.escape(name)}).*>:\n(?:.+\n)*", "", said)


def objects(archive):
    """What objdump says of each object that has a function of the headers."""
    said = subprocess.run(["objdump", "-hdrw", archive], capture_output=True, text=True, check=True).stdout
    named = set(re.findall(r"^function\t\d+\t(\w+)$", FUNCTIONS.read_text(), re.M))
    return [it for it in re.split(r"(?m)^.*:\s+file format ", said)[1:] if named & set(re.findall(r"(?m)^[0-9a-f]+ <(\w+)>:$", it))]


def jumps(said):
    """Each jump of an object: the section, the address, and whether it lies within 32 bytes wherever the section is put."""
    aligned = {name: 1 << int(power) for name, power in ALIGNED.findall(said)}
    for part in said.split("\nDisassembly of section ")[1:]:
        section = part.partition("\n")[0].removesuffix(":")
        for address, code in JUMP.findall(part):
            begin, length = int(address, 16), len(code.split())
            yield section, begin, aligned[section] % WITHIN == 0 and begin // WITHIN == (begin + length) // WITHIN


def main(file, name=None):
    found = [it for said in ([functions(file, name)] if name else objects(file)) for it in jumps(said)]
    across = [(section, address) for section, address, is_within in found if not is_within]
    for section, address in across[:5]:
        print(f"{section}: the jump at {address:#x} is across")
    print(f"{len(found)} jumps, {len(across)} across")
    return int(bool(across) or not found)


if len(sys.argv) not in (2, 3):
    sys.exit(__doc__)
sys.exit(main(*sys.argv[1:]))
