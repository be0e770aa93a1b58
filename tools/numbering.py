"""The instructions of crates/wasmi_ops and crates/wasmi_scalar_ops, and their numbers. A shape of several lists there has its numbers in rows, which tools/header writes
to crates/wasmi_c/src/instruction/numbers.rt; in a shape of one list the number is the place. What the proofs compare with both is the names
and the statuses in crates/wasmi_c/specs/ReleasedNumbers.antt."""
import functools
import itertools
import re
import sys
import textwrap

from libraries import TOP

CRATES = TOP / "crates"
CRATES_OF_LISTS = ("wasmi_ops", "wasmi_scalar_ops")
SOURCE = CRATES / "wasmi_c/src/instruction/numbers.rt"
RELEASED = TOP / "include" / "numbers.tsv"
SPECIFICATION = CRATES / "wasmi_c/specs/ReleasedNumbers.antt"
ROWS = re.compile(r"^macro_rules! (\w+) \{\n    \(\$make:ident!(.*?)\n\}", re.M | re.S)
ROW = re.compile(r"\b([A-Z]\w*) (\w+),")
LIST = re.compile(r"pub const (\w+): \[\(&str, (\w+)\); (\d+)\] =\s+(\w+)!\(names! \w+\);")
# A shape of one list, and where that list stands.
SINGLE = {
    "ternary": "TERNARIES", "extract_lane": "EXTRACTIONS", "replace_lane": "REPLACEMENTS", "load_lane": "LANE_LOADS", "store_lane": "LANE_STORES",
}
# A shape of several lists: its enum in wasmi_c, which has a variant for each list, or for an instruction that is in none.
SEVERAL = {"unary": "Unary", "binary": "Binary", "load": "Load", "store": "Store"}
MATCHED = {"load"}  # the shapes of which a match is made too, by a macro that has the rows
TEXTS = {
    "unary": "one operand", "binary": "two operands", "ternary": "three operands", "extract_lane": "a lane taken from a vector",
    "replace_lane": "a lane that takes an item", "load": "loads", "store": "stores", "load_lane": "loads of a lane",
    "store_lane": "stores of a lane",
}
HEAD = """\
//! The number of each instruction of a shape that has several lists in `wasmi_ops` and
//! `wasmi_scalar_ops`: its place among the rows. `tools/header` writes this file: first the numbers
//! of `include/numbers.tsv`, then what the lists have besides.

"""
SPECIFICATION_HEAD = """\
-- The names of the instructions of each shape in the order of their numbers, and each status with its number, as
-- `include/numbers.tsv` has them. `tools/header` writes this file; `numbers_are_released` says that the code agrees.
use Rattle.std.specs.Prelude.{ℕ, List, [], ◌∷◌, codes, map}
use Rattle.wasmi_types.specs.Trap.{code_number}
use Rattle.wasmi_types.specs.declared.trap.TrapCode.TheVariants as trap
use Rattle.wasmi_c.specs.declared.status.TheConstants as status
"""


def text_of(crate):
    return "\n".join(path.read_text() for path in sorted((CRATES / crate / "src").rglob("*.rt")))


@functools.cache
def lists():
    """Each list by its name: the type of its instructions, and its rows in their order, a variant and the name of its function."""
    text = "\n".join(map(text_of, CRATES_OF_LISTS))
    rows = {macro: ROW.findall(body) for macro, body in ROWS.findall(text)}
    made = {}
    for name, kind, count, macro in LIST.findall(text):
        if len(rows[macro]) != int(count):
            sys.exit(f"{name}: {len(rows[macro])} names were read of {count}")
        made[name] = (kind, rows[macro])
    return made


def names_of(name):
    """The names of a list in its order."""
    return [function for _, function in lists()[name][1]]


@functools.cache
def rows_of(shape):
    """By name, a row of each instruction of a shape in the order of its lists: the variant, the type and the variant of the type."""
    text = "\n".join(path.read_text() for path in sorted(SOURCE.parent.rglob("*.rt")))
    body = re.search(rf"pub enum {SEVERAL[shape]} \{{\n(.*?)\n\}}", text, re.S)[1]
    made = {}
    for part, kind in re.findall(r"^    (\w+)\((\w+)\),$", body, re.M):
        found = [rows for its, rows in lists().values() if its == kind]
        if len(found) != 1:
            sys.exit(f"{SEVERAL[shape]}::{part} is of {kind}, which {len(found)} lists have")
        made |= {function: (part, kind, variant) for variant, function in found[0]}
    return made | {name: (variant, None, None) for name, variant in re.findall(r"^    /// `(\w+)`\n    (\w+),$", body, re.M)}


def names_by_number(released):
    """The names of each shape in the order of their numbers: those of the last version, which are by shape in `released`, then the
    others as their lists have them. Each list has to be one of a shape's."""
    named, kinds = {}, set()
    for shape in TEXTS:
        names = names_of(SINGLE[shape]) if shape in SINGLE else list(rows_of(shape))
        known = [name for name in released.get(shape, []) if name in names and shape in SEVERAL]
        named[shape] = known + [name for name in names if name not in known]
        kinds |= {kind for _, kind, _ in rows_of(shape).values()} if shape in SEVERAL else set()
    for name, (kind, _) in lists().items():
        if name not in SINGLE.values() and kind not in kinds:
            sys.exit(f"the instructions of {name} have no numbers: no shape of tools/numbering.py has that list")
    return named


def lists_by_number():
    """By the name of each list of a shape with several, and of an instruction that is in none, the numbers that its instructions have, as ranges: the first one and the
    one after the last."""
    rows = [line.split("\t") for line in RELEASED.read_text().splitlines()[1:]]
    named = names_by_number({shape: [name for its, _, name in rows if its == shape] for shape in SEVERAL})
    list_of, made = {kind: name for name, (kind, _) in lists().items()}, {}
    for shape in SEVERAL:
        numbered = enumerate(rows_of(shape)[name][1:] for name in named[shape])
        for (kind, single), group in itertools.groupby(numbered, key=lambda it: (it[1][0], it[1][0] is None and it[0])):
            first, *_, last = [number for number, _ in group] * 2
            made.setdefault(list_of[kind] if kind else named[shape][first].upper(), []).append((first, last + 1))
    return made


def wrapped(words, indent):
    return textwrap.fill(" ".join(words), 99, initial_indent=" " * indent, subsequent_indent=" " * indent) + "\n"


def imports_of(kinds):
    """The lines of numbers.rt that import types of instructions."""
    made = ""
    for crate in CRATES_OF_LISTS:
        its = sorted(kind for kind in kinds if f"pub enum {kind} {{" in text_of(crate))
        line = f"use {crate}::{{{', '.join(its)}}};\n"
        made += line if len(line) <= 101 else f"use {crate}::{{\n{wrapped([f'{kind},' for kind in its], 4)}}};\n"
    return made


def source(named):
    """The text of numbers.rt."""
    uses, kinds, text, macros = ["use crate::instruction::rows::numbered;\n"], set(), "", ""
    for shape, enum in SEVERAL.items():
        rows, name = [rows_of(shape)[function] for function in named[shape]], f"{shape.upper()}_INSTRUCTIONS"
        uses.append(f"use crate::instruction::{shape}::{enum};\n")
        kinds |= {kind for _, kind, _ in rows if kind}
        indent = 12 if shape in MATCHED else 8
        groups = "".join(
            f"{' ' * (indent - 4)}{part} {kind} {{\n{wrapped([f'{variant},' for _, _, variant in group], indent)}{' ' * (indent - 4)}}}\n"
            for (part, kind), group in itertools.groupby(rows, key=lambda row: row[:2]))
        if any(kind is None for _, kind, _ in rows):
            value = "[\n" + "".join(f"    {enum}::{part}({kind}::{variant}),\n" if kind else f"    {enum}::{part},\n" for part, kind, variant in rows) + "]"
        elif shape in MATCHED:
            value = f"{shape}_numbers!(numbered! {enum})"
            text += f"\n/// The rows of `{name}`.\nmacro_rules! {shape}_numbers {{\n    ($make:ident! $($with:tt)*) => {{ $make! {{ [$($with)*]\n"
            text += f"{groups}    }} }};\n}}\n"
            macros += f"pub(crate) use {shape}_numbers;\n"
        else:
            value = f"numbered! {{\n    [{enum}]\n{groups}}}"
        text += f"\n/// The instructions that `{enum}` has, by number.\npub const {name}: [{enum}; {len(rows)}] = {value};\n"
    macros = "".join(sorted(macros.splitlines(True)))
    return f"{HEAD}{''.join(sorted(uses))}{imports_of(kinds)}{text}\n{macros}"


def antt_list(entries):
    """A list in antt, in lines that end after an entry."""
    words = [f"{entry} ∷".replace(" ", "\N{NO-BREAK SPACE}") for entry in entries] + ["[]"]
    made = textwrap.fill(" ".join(words), 118, initial_indent="    ", subsequent_indent="    ", break_on_hyphens=False)
    return made.replace("\N{NO-BREAK SPACE}", " ")


def specification(named, statuses):
    """The text of ReleasedNumbers.antt. A status is what the code returns, and its number."""
    text = SPECIFICATION_HEAD
    for shape, what in TEXTS.items():
        names = antt_list(f'"{name}"' for name in named[shape])
        text += f"\n-- {what}\nabbrev pub {shape}_names : List (List ℕ)\n{shape}_names = map codes (\n{names})\n"
    rows = antt_list(f"({term}, {number})" for term, number in statuses)
    return f"{text}\n-- every status as the code has it, and its number\nabbrev pub statuses : List (ℕ × ℕ)\nstatuses =\n{rows}\n"
