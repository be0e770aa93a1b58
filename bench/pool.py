"""Times calls on a tenant of a pool of eight beside the same calls on a machine, by handle. usage: pool.py [LIBRARY [ROUNDS]]

LIBRARY is crates/wasmi_c_lib/out/libwasmi_core.a if none is named, which has to be of the sources as they are, or that of rust/c. Four
links place its functions 16, 32, 48 and 64 bytes further, since on some processors a jump takes longer where it ends at a multiple of 32
bytes. Each is run in turn, and each cell is the least time of all, in nanoseconds. It ends with 1 if a call on a tenant takes more than
1.5 of the machine's."""
import pathlib
import subprocess
import sys
import tempfile

TOP = pathlib.Path(__file__).resolve().parents[1]
sys.dont_write_bytecode = True
sys.path.append(str(TOP / "tools"))
from libraries import other_text_of

MOST = 1.5


def link(library, program):
    """Links a program in which the library's functions lie as many bytes further as its name says."""
    words = ["gcc", "-O2", f"-I{TOP}/include", f"-DSKIP={pathlib.Path(program).name}", f"{TOP}/bench/inlined/pool.c", library]
    subprocess.run([*words, "-o", program, "-lpthread", "-ldl", "-lm"], check=True)


def times_of(program):
    """The times that a link prints: of each call on a machine and on a tenant."""
    said = subprocess.run([program, "20"], capture_output=True, text=True, check=True).stdout
    for line in said.splitlines():
        name, _, machine, _, tenant, _ = line.split()
        yield name, (float(machine), float(tenant))


def main(library=f"{TOP}/crates/wasmi_c_lib/out/libwasmi_core.a", rounds="10"):
    if why := other_text_of(library):
        sys.exit(f"{sys.argv[0]}: {why}")
    least = {}
    with tempfile.TemporaryDirectory() as folder:
        programs = [f"{folder}/{skip}" for skip in (16, 32, 48, 64)]
        for program in programs:
            link(library, program)
        for program in programs * int(rounds):
            for name, times in times_of(program):
                least[name] = tuple(map(min, zip(times, least.get(name, times))))
    print("| Call | Machine | Tenant | Tenant / machine |\n|---|---|---|---|")
    for name, (machine, tenant) in least.items():
        print(f"| `{name}` | {machine:.1f} | {tenant:.1f} | {tenant / machine:.2f} |")
    return int(not least or any(tenant > MOST * machine for machine, tenant in least.values()))


if __name__ == "__main__":
    sys.exit(main(*sys.argv[1:]))
