"""The errors of memories and tables: what tools/errors.toml says of each, and what is made of it."""
import re
import tomllib

import regions
from libraries import TOP
from regions import FIXED, definition, filled

ERRORS = TOP / "crates/wasmi_meter/src/error.rt"
ROWS = TOP / "tools/errors.toml"
# The keys of a row, which the head of tools/errors.toml explains.
NEEDED = {"text", "status", "number", "means"}
POSSIBLE = {"plain", "header", "refusal"}
KINDS = {"MemoryError": "memory", "TableError": "table"}


class Error:
    """An error: the name of its enum and of its variant, whether it has a number, and its row."""

    def __init__(self, enum, variant, has_fuel, row):
        self.enum, self.variant, self.has_fuel, self.row = enum, variant, has_fuel, row

    def pattern(self):
        name = f"{KINDS[self.enum]}.{self.variant}"
        return f"({name} required)" if self.has_fuel else name


def variants(enum):
    """The names of the variants of an enum, and what follows each."""
    body = ERRORS.read_text().partition(f"pub enum {enum} {{\n")[2].partition("\n}")[0]
    return re.findall(r"^    ([A-Z]\w+)(.*),$", body, re.M)


def errors():
    rows, made = tomllib.loads(ROWS.read_text()), []
    for enum in KINDS:
        its = variants(enum)
        if list(rows[enum]) != [variant for variant, _ in its]:
            raise SystemExit(f"tools/errors.toml and {enum} differ: {set(rows[enum]) ^ {variant for variant, _ in its} or 'in their order'}")
        made += [Error(enum, variant, bool(fields), rows[enum][variant]) for variant, fields in its]
    for it in made:
        if wrong := set(it.row) - NEEDED - POSSIBLE | NEEDED - set(it.row):
            raise SystemExit(f"tools/errors.toml: {it.enum}.{it.variant} has no such key, or lacks it: {', '.join(sorted(wrong))}")
    return made


def of(enum):
    """A definition that has a line for each error of an enum."""
    def made_of(comment, name, type, value):
        def made(its):
            lines = [filled(f"{name} {it.pattern()} = {value(it)}") for it in its if it.enum == enum]
            return definition(comment, name, type, lines)
        return made
    return made_of


def text(it):
    """The text of an error, which isn't broken between its words."""
    return f'codes "{it.row["text"]}"'.replace(" ", FIXED) + " ++ decimal required" * it.has_fuel


def constants(its):
    """The constants of statuses."""
    return "".join(f"/// {it.row['means']}\npub const {it.row['status']}: u8 = {it.row['number']};\n" for it in its)


def arms(enum):
    """The arms of a function from an error to its status."""
    def made(its):
        fields = lambda it: " { required_fuel: _ }" if it.has_fuel else ""
        return "".join(f"        {enum}::{it.variant}{fields(it)} => {it.row['status']},\n" for it in its if it.enum == enum)
    return made


def enumerators(its):
    """The lines of the statuses in include/wasmi_machine.h."""
    lines = [(f"    WASMI_{it.row['status']} = {it.row['number']},", it.row["header"]) for it in its if "header" in it.row]
    width = max(len(line) for line, _ in lines) + 1
    return "".join(f"{f'{line:{width}}/* {said} */' if said else line}\n" for line, said in lines)


def texts_in_c(its):
    """The function of conformance/hostile/calls.h from a status to the text of an error without a number."""
    status = lambda it: f"WASMI_{it.row['status']}" if "header" in it.row else it.row["number"]
    cases = "".join(f'        case {status(it)}: return "{it.row["text"]}";\n' for it in its if not it.has_fuel)
    return f"""/* The text of an error of a memory or a table, but for want of fuel. */
static inline const char *error_of(uint8_t status) {{
    switch (status) {{
{cases}        default: return "unknown status";
    }}
}}
"""


def refusals():
    """The table of docs/SCRIPT.md: the texts of each refusal, of memories and of tables."""
    rows = {}
    for it in errors():
        if "refusal" in it.row:
            said = it.row["text"] + "N" * it.has_fuel
            texts = rows.setdefault(it.row["refusal"], {kind: [] for kind in KINDS})[it.enum]
            texts.append(f"`` {said} ``" if "`" in said else f"`{said}`")
    lines = (f"| {name} | {' | '.join(', '.join(its) for its in texts.values())} |\n" for name, texts in rows.items())
    return "| Refusal | Text of a memory or an instruction | Text of a table |\n|---|---|---|\n" + "".join(lines)


FILES = {
    "crates/wasmi_meter/specs/Texts.antt": [(
        of("MemoryError")("the text of an error of a memory", "memory_error_text", "MemoryError → List ℕ", text),
        of("TableError")("the text of an error of a table", "table_error_text", "TableError → List ℕ", text),
    )],
    "crates/wasmi_laws/specs/Runs.antt": [tuple(
        of(enum)(f"the error of a {kind} is found before the limiter is asked and before anything is charged", f"IsPlain{enum}", f"{enum} → Type 0",
                 lambda it: "Unit {0}" if it.row.get("plain") else "⊥") for enum, kind in KINDS.items())],
    "crates/wasmi_c/specs/Status.antt": [tuple(
        of(enum)(f"the status of a refused call on a {kind}", f"{kind}_status", f"{enum} → ℕ", lambda it: f"status.{it.row['status']}")
        for enum, kind in KINDS.items())],
    "crates/wasmi_c/src/status.rt": [(constants,), (arms("MemoryError"),), (arms("TableError"),)],
}


def texts():
    """The files as they are to be."""
    return regions.texts(FILES, errors())
