"""Builds the bench. usage: build.py CRATE FOLDER [rust|arrays [LINKS]]

CRATE is the folder of the source of the Rust crate wasmi_core 2.0.0. FOLDER, outside this repository, gets a copy of the
repository's crates and the bench's own, which are proved and built there, and the program that runs them beside the crate.
With `rust` nothing is proved: the program runs the Rust crate in rust/ beside the crate, both compiled for x86-64-v2; with `arrays`
a copy of it whose lanes are arrays, as on a processor that isn't an x86-64. LINKS is how many programs are made, 12 without it."""
import os
import re
import shutil
import subprocess
import sys

HERE = os.path.dirname(os.path.realpath(__file__))
MANIFEST = """\
[package]
name = "bench"
version = "0.1.0"
edition = "2024"

[dependencies]
conformance = { path = "CONFORMANCE" }
wasmi_core = "2.0.0"
wasmi_core_proved = { path = "HERE", optional = true }

[features]
rust = ["dep:wasmi_core_proved"]

[patch.crates-io]
wasmi_core = { path = "CRATE" }

[workspace]

[profile.release]
opt-level = 3
codegen-units = 1
"""


# ---- the rows that are made from tables: vector instructions, and loads and stores of numbers
#
# Each row is an expression that is a text of both languages, over x and y (vectors of the first and the second array), kept (the
# first vector of the second array), first (the low word of x), low and high (the words of y) and, for an access, memory.

LANES = {"i8x16": 8, "i16x8": 16, "i32x4": 32, "i64x2": 64}

BINARY = """
i8x16_add i16x8_add i32x4_add i64x2_add i8x16_sub i16x8_sub i32x4_sub i64x2_sub i8x16_mul i16x8_mul i32x4_mul i64x2_mul
i8x16_add_sat_s i8x16_add_sat_u i16x8_add_sat_s i16x8_add_sat_u i8x16_sub_sat_s i8x16_sub_sat_u i16x8_sub_sat_s i16x8_sub_sat_u
i16x8_q15mulr_sat_s i8x16_min_s i8x16_min_u i16x8_min_s i16x8_min_u i32x4_min_s i32x4_min_u i8x16_max_s i8x16_max_u i16x8_max_s
i16x8_max_u i32x4_max_s i32x4_max_u i8x16_avgr_u i16x8_avgr_u v128_and v128_or v128_xor v128_andnot
i8x16_eq i16x8_eq i32x4_eq i64x2_eq i8x16_ne i16x8_ne i32x4_ne i64x2_ne
i8x16_lt_s i16x8_lt_s i32x4_lt_s i64x2_lt_s i8x16_lt_u i16x8_lt_u i32x4_lt_u i8x16_le_s i16x8_le_s i32x4_le_s i64x2_le_s
i8x16_le_u i16x8_le_u i32x4_le_u i8x16_gt_s i16x8_gt_s i32x4_gt_s i64x2_gt_s i8x16_gt_u i16x8_gt_u i32x4_gt_u
i8x16_ge_s i16x8_ge_s i32x4_ge_s i64x2_ge_s i8x16_ge_u i16x8_ge_u i32x4_ge_u i8x16_swizzle"""
UNARY = "v128_not i8x16_neg i16x8_neg i32x4_neg i64x2_neg i8x16_abs i16x8_abs i32x4_abs i64x2_abs i8x16_popcnt"
WIDENING_BINARY = """
i16x8_extmul_low_i8x16_s i16x8_extmul_low_i8x16_u i16x8_extmul_high_i8x16_s i16x8_extmul_high_i8x16_u
i32x4_extmul_low_i16x8_s i32x4_extmul_low_i16x8_u i32x4_extmul_high_i16x8_s i32x4_extmul_high_i16x8_u
i64x2_extmul_low_i32x4_s i64x2_extmul_low_i32x4_u i64x2_extmul_high_i32x4_s i64x2_extmul_high_i32x4_u
i8x16_narrow_i16x8_s i8x16_narrow_i16x8_u i16x8_narrow_i32x4_s i16x8_narrow_i32x4_u i32x4_dot_i16x8_s
i16x8_relaxed_dot_i8x16_i7x16_s i8x16_relaxed_swizzle i16x8_relaxed_q15mulr_s"""
WIDENING_UNARY = """
i16x8_extend_low_i8x16_s i16x8_extend_low_i8x16_u i16x8_extend_high_i8x16_s i16x8_extend_high_i8x16_u
i32x4_extend_low_i16x8_s i32x4_extend_low_i16x8_u i32x4_extend_high_i16x8_s i32x4_extend_high_i16x8_u
i64x2_extend_low_i32x4_s i64x2_extend_low_i32x4_u i64x2_extend_high_i32x4_s i64x2_extend_high_i32x4_u
i16x8_extadd_pairwise_i8x16_s i16x8_extadd_pairwise_i8x16_u i32x4_extadd_pairwise_i16x8_s i32x4_extadd_pairwise_i16x8_u"""
TERNARY = """i8x16_relaxed_laneselect i16x8_relaxed_laneselect i32x4_relaxed_laneselect i64x2_relaxed_laneselect
i32x4_relaxed_dot_i8x16_i7x16_add_s"""
SHIFTS = "shl shr_s shr_u"
WIDENING_WORDS = "v128_widen8x8_s v128_widen8x8_u v128_widen16x4_s v128_widen16x4_u v128_widen32x2_s v128_widen32x2_u v128_low64_zero"
LOADS = """v128_load v128_load8x8_s v128_load8x8_u v128_load16x4_s v128_load16x4_u v128_load32x2_s v128_load32x2_u
v128_load8_splat v128_load16_splat v128_load32_splat v128_load64_splat v128_load32_zero v128_load64_zero"""

# Loads and stores of numbers: the functions' names, with the result of a load as 64 bits, and the operand of a store.
NUMBER_LOADS = {f"i32_load{n}": "i64::from(x).cast_unsigned()" for n in "8_s 8_u 16_s 16_u".split()}
NUMBER_LOADS |= {f"i64_load{n}": "x.cast_unsigned()" for n in "8_s 8_u 16_s 16_u 32_s 32_u".split()}
NUMBER_LOADS |= {"load_u32": "u64::from(x)", "load_u64": "x"}
NUMBER_STORES = {f"i32_store{n}": "((first & 0xffff_ffff) as u32).cast_signed()" for n in (8, 16)}
NUMBER_STORES |= {f"i64_store{n}": "first.cast_signed()" for n in (8, 16, 32)}
NUMBER_STORES |= {"store32": "(first & 0xffff_ffff) as u32", "store64": "first"}


def item(lanes, word):
    """The low bits of a word, as an item of a lane."""
    width = LANES[lanes]
    return f"{word}.cast_signed()" if width == 64 else f"(({word} & {hex(2**width - 1)}) as u{width}).cast_signed()"


def lane(number_of_lanes, index):
    return f"lane{number_of_lanes}({index})"


def lane_rows(suffix, index):
    """Extracting and replacing a lane, and a shuffle, by an index for each of some lanes."""
    rows = []
    for lanes, width in LANES.items():
        count = 128 // width
        for sign in ("_s", "_u") if width < 32 else ("",):
            number = f"simd::{lanes}_extract_lane{sign}(x, {lane(count, index(count))})"
            number += "" if sign == "_u" else ".cast_unsigned()"
            rows.append((f"{lanes}_extract_lane{sign}{suffix}", f"from_word_pair(u64::from({number}), 0)"))
    for lanes, width in LANES.items():
        count = 128 // width
        rows.append((f"{lanes}_replace_lane{suffix}", f"simd::{lanes}_replace_lane(x, {lane(count, index(count))}, {item(lanes, 'high')})"))
    return rows


FIXED = "from_word_pair(0x0f0f_0f0f_0f0f_0f0f, 0x00ff_00ff_00ff_00ff)"


def lanewise():
    """The instructions of the module `simd` of `wasmi_lanewise`."""
    rows = [(f"{lanes}_splat", f"simd::{lanes}_splat({item(lanes, 'low')})") for lanes in LANES]
    rows += lane_rows("", lambda count: count // 2 - 1)
    chosen = [0, 17, 2, 19, 4, 21, 6, 23, 31, 14, 29, 12, 27, 10, 25, 8]
    rows.append(("i8x16_shuffle", f"simd::i8x16_shuffle(x, y, [{', '.join(lane(32, it) for it in chosen)}])"))
    rows += [(it, f"simd::{it}(x, y)") for it in BINARY.split()]
    rows += [(it, f"simd::{it}(x)") for it in UNARY.split()]
    rows.append(("v128_bitselect_fixed", f"simd::v128_bitselect(x, y, {FIXED})"))
    rows.append(("v128_bitselect", "simd::v128_bitselect(x, y, from_word_pair(high, low))"))
    rows += lane_rows("_by_variable", lambda count: f"(low & {count - 1}) as u8")
    bytes_of_y = [f"(({word} >> {8 * i}) & 31) as u8" for word in ("low", "high") for i in range(8)]
    rows.append(("i8x16_shuffle_by_variable", f"simd::i8x16_shuffle(x, y, [{', '.join(lane(32, it) for it in bytes_of_y)}])"))
    halves = "from_word_pair(low & 0x1f1f_1f1f_1f1f_1f1f, high & 0x1f1f_1f1f_1f1f_1f1f)"
    rows.append(("i8x16_swizzle_half_inside", f"simd::i8x16_swizzle(x, {halves})"))
    return rows


def widening():
    """The instructions of the module `simd` of `wasmi_simd`."""
    rows = [(it, f"simd::{it}(x, y)") for it in WIDENING_BINARY.split()]
    rows += [(it, f"simd::{it}(x)") for it in WIDENING_UNARY.split()]
    rows += [(it, f"simd::{it}(x, y, from_word_pair(high, low))") for it in TERNARY.split()]
    rows += [(f"{lanes}_{it}", f"simd::{lanes}_{it}(x, (low & 0xffff_ffff) as u32)") for it in SHIFTS.split() for lanes in LANES]
    tests = [f"{lanes}_all_true" for lanes in LANES] + ["v128_any_true"] + [f"{lanes}_bitmask" for lanes in LANES]
    rows += [(it, f"from_word_pair(u64::from(simd::{it}(x)), 0)") for it in tests]
    rows += [(it, f"simd::{it}(low)") for it in WIDENING_WORDS.split()]
    rows.append(("v128_low32_zero", "simd::v128_low32_zero((low & 0xffff_ffff) as u32)"))
    return rows


def lanewise_thirds():
    """`v128_bitselect` with one mask for all turns, which is read before them; lanewise has the mask of each turn and a literal."""
    return [("v128_bitselect_kept", "simd::v128_bitselect(x, y, kept)")]


def widening_thirds():
    """Instructions of three vectors with one third for all turns: a literal, or read before them."""
    names = ("i8x16_relaxed_laneselect", "i32x4_relaxed_dot_i8x16_i7x16_add_s")
    thirds = {"_fixed": FIXED, "_kept": "kept"}
    return [(f"{name}{suffix}", f"simd::{name}(x, y, {third})") for name in names for suffix, third in thirds.items()]


ADDRESS = "low & 0x3fe0, high & 15"


def loads():
    """The loads of `wasmi_vector_access`, within 16 KiB."""
    rows = [(it, f"simd::{it}(memory, {ADDRESS})") for it in LOADS.split()]
    for width in LANES.values():
        count = 128 // width
        rows.append((f"v128_load{width}_lane", f"simd::v128_load{width}_lane(memory, {ADDRESS}, y, {lane(count, count // 2 - 1)})"))
    return rows


def stores():
    """The stores of `wasmi_vector_access`, within 16 KiB."""
    rows = [("v128_store", f"simd::v128_store(memory, {ADDRESS}, x)")]
    for width in LANES.values():
        count = 128 // width
        rows.append((f"v128_store{width}_lane", f"simd::v128_store{width}_lane(memory, {ADDRESS}, x, {lane(count, count // 2 - 1)})"))
    return rows


def number_loads():
    """The loads of `wasmi_access`, within 16 KiB."""
    return [(it, f"wasm::{it}(memory, {ADDRESS}).map(|x| from_word_pair({bits}, 0))") for it, bits in NUMBER_LOADS.items()]


def number_stores():
    """The stores of `wasmi_access`, within 16 KiB."""
    return [(it, f"wasm::{it}(memory, {ADDRESS}, {value})") for it, value in NUMBER_STORES.items()]


# ---- the libraries and the program

LINKS = 12
COUNTS = [(str(count), "") for count in (2, 4, 8, 16, 32)]
LANEWISE = "wasmi_types wasmi_raw wasmi_lanes wasmi_lanewise"
LIBRARIES = {
    "bench_lanewise": (LANEWISE, "vectors.rt.in", {"lane": COUNTS, "vector": lanewise() + lanewise_thirds()}),
    "bench_widening": (f"{LANEWISE} wasmi_simd", "vectors.rt.in", {"vector": widening() + widening_thirds()}),
    "bench_accesses": (f"{LANEWISE} wasmi_access wasmi_simd wasmi_vector_access", "vectors.rt.in", {"lane": COUNTS[:4], "load": loads(), "store": stores()}),
    "bench_numbers": ("wasmi_types wasmi_raw wasmi_lanes wasmi_access", "vectors.rt.in", {"load": number_loads(), "store": number_stores()}),
    "bench_works": (f"{LANEWISE} wasmi_typed wasmi_access wasmi_scalar wasmi_simd wasmi_vector_access wasmi_meter wasmi_store", "works.rt.in", {}),
    "bench_machine": (f"{LANEWISE} wasmi_typed wasmi_access wasmi_scalar wasmi_meter wasmi_store wasmi_core", "machine.rt.in", {}),
}


def read(path):
    with open(path) as it:
        return it.read()


def write(path, text):
    os.makedirs(os.path.dirname(path), exist_ok=True)
    with open(path, "w") as it:
        it.write(text)


def library(below, template, tables):
    """A library's text: what stands under `for each KIND` once for each row of that table."""
    head, *blocks = re.split(r"(?m)^// for each (\w+)\n", read(f"{HERE}/library/{template}").replace("// end\n", ""))
    crate = below.split()[-1]
    text = head.replace("CRATE", crate).replace("MODULE", "wasm" if crate == "wasmi_access" else "simd")
    for kind, block in zip(blocks[::2], blocks[1::2]):
        text += "".join(block.replace("NAME", name).replace("EXPRESSION", it) for name, it in tables.get(kind, []))
    return text


def build_libraries(to):
    """Proves and builds the libraries, over a copy of the crates. What earlier checks kept in their out/ is used again."""
    own = os.path.dirname(HERE)
    for name in os.listdir(f"{own}/crates"):
        for part in os.listdir(f"{own}/crates/{name}"):
            source, copy = f"{own}/crates/{name}/{part}", f"{to}/crates/{name}/{part}"
            if os.path.isdir(source) and not (part == "out" and os.path.isdir(copy)):
                shutil.rmtree(copy, ignore_errors=True)
                shutil.copytree(source, copy)
    listed = read(f"{own}/crates.txt")
    write(f"{to}/crates.txt", listed + "".join(f"{name} staticlib: {of[0]}\n" for name, of in LIBRARIES.items()))
    shutil.copy(f"{own}/HANDLES", to)
    for name, of in LIBRARIES.items():
        write(f"{to}/crates/{name}/src/lib.rt", library(*of))
    for name in LIBRARIES:
        print(f"{name}: rt lib", flush=True)
        with open(f"{to}/{name}.log", "w") as log:
            subprocess.run(["rt", "lib"], cwd=f"{to}/crates/{name}", stdout=log, stderr=subprocess.STDOUT, check=True)


def copy_with_arrays(to):
    """Copies the Rust crate in rust/, with another default of features, by which its lanes are arrays, and another version."""
    own = f"{os.path.dirname(HERE)}/rust"
    shutil.copytree(f"{own}/src", f"{to}/src", dirs_exist_ok=True)
    shutil.copy(f"{own}/README.md", to)
    text, count = re.subn(r'(?m)^(default = \[.*), "sse2"\]$', r"\1]", read(f"{own}/Cargo.toml"))
    text, versions = re.subn(r'(?m)^(version = "[\d.]+)"$', r'\1-arrays"', text)
    assert count == versions == 1, "the manifest has no default feature sse2, or no version"
    write(f"{to}/Cargo.toml", re.sub(r"(?ms)^\[\[example.*?^$", "", text))


def write_program(crate, to, here):
    """Writes the program and its rows. `here` is the folder of this repository's Rust crate."""
    shutil.copytree(f"{HERE}/program", to, dirs_exist_ok=True)
    top = os.path.dirname(HERE)
    manifest = MANIFEST.replace("CRATE", os.path.realpath(crate)).replace("HERE", here)
    write(f"{to}/Cargo.toml", manifest.replace("CONFORMANCE", f"{top}/conformance/crate"))
    kinds = {"vector_rows": "x, y, kept, first, low, high", "load_rows": "memory, y, low, high", "store_rows": "memory, x, first, low, high"}
    tables = {"lanewise": lanewise(), "widening": widening(), "loads": loads(), "stores": stores()}
    tables |= {"number_loads": number_loads(), "number_stores": number_stores()}
    tables |= {"lanewise_thirds": lanewise_thirds(), "widening_thirds": widening_thirds()}
    write(f"{to}/src/here.rs", "declared! { " + " ".join(name for of in tables.values() for name, _ in of) + " }\n")
    text = ""
    for table, of in tables.items():
        shape = {"loads": "load_rows", "stores": "store_rows"}.get(table.removeprefix("number_"), "vector_rows")
        text += f"pub(super) fn {table}() -> Vec<Row> {{\n    {shape}! {{\n"
        text += "".join(f"        {name} |{kinds[shape]}| {it};\n" for name, it in of) + "    }\n}\n"
    write(f"{to}/src/rows.rs", text)


def build_program(to, flags, arguments=(), links=LINKS):
    """Builds the program, in some links that place its functions in other orders: a jump across a line of 32 bytes costs time."""
    environment = dict(os.environ, CARGO_ENCODED_RUSTFLAGS="\x1f".join(flags), CARGO_TARGET_DIR=f"{to}/target")
    for link in range(links):
        print(f"link {link}: cargo rustc", flush=True)
        shuffled = f"-Clink-arg=-Wl,--shuffle-sections=.text*={link + 1}"
        subprocess.run(["cargo", "rustc", "--release", "--offline", *arguments, "--", shuffled], cwd=to, env=environment, check=True)
        os.makedirs(f"{to}/links", exist_ok=True)
        shutil.copy(f"{to}/target/release/bench", f"{to}/links/{link}")


def flags_of_libraries(libraries):
    """Where the linker finds the libraries, and the kit's part of libc."""
    kit = os.path.dirname(subprocess.run(["rt", "doc"], capture_output=True, text=True, check=True).stdout.strip())
    return [f"-Lnative={libraries}/crates/{name}/out" for name in LIBRARIES] + [f"-Lnative={kit}/c"]


def main(crate, folder, form=None, links=LINKS):
    here = f"{os.path.dirname(HERE)}/rust"
    if form == "arrays":
        here = f"{folder}/arrays"
        copy_with_arrays(here)
    write_program(crate, f"{folder}/program", here)
    if form:
        flags = ["-Ctarget-cpu=x86-64-v2", "-Cllvm-args=-align-loops=64", "-Cllvm-args=-x86-branches-within-32B-boundaries"]
        build_program(f"{folder}/program", flags, ["--features", "rust"], int(links))
        for link in range(int(links)):
            subprocess.run([sys.executable, f"{HERE}/../conformance/jumps.py", f"{folder}/program/links/{link}", "bench::"], check=True)
    else:
        build_libraries(f"{folder}/repository")
        build_program(f"{folder}/program", flags_of_libraries(f"{folder}/repository"))


if __name__ == "__main__":
    if len(sys.argv) not in (3, 4, 5) or (sys.argv[3:4] or ["rust"])[0] not in ("rust", "arrays"):
        sys.exit(__doc__)
    main(sys.argv[1], os.path.realpath(sys.argv[2]), *sys.argv[3:])
