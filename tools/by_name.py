"""The functions of C for scalar instructions, loads and stores by name, which tools/header writes: in crates/wasmi_c_lib/src those of
C, each with the equation of the function of its name in the library, and in include/wasmi_instructions.h their prototypes and short names."""
import re
import sys
import textwrap

from libraries import TOP
from numbering import names_of

CRATES = TOP / "crates"
SOURCES = CRATES / "wasmi_c_lib" / "src"
HEADER = TOP / "include" / "wasmi_instructions.h"
WIDTH = 100
C_TYPES = {
    "bool": "bool", "i32": "int32_t", "i64": "int64_t", "u32": "uint32_t", "u64": "uint64_t", "u8": "uint8_t", "V128": "wasmi_words",
    "RawVal": "wasmi_words",
}
FUNCTION = re.compile(r"(?:^///[^\n]*\n)(?:#\[[^\n]*\n)*^pub fn (\w+)\(([^)]*)\) -> ([^\n]*)\n    ensures \{ (.*?) \}\n\{", re.M | re.S)
# A module: what it has, the lists of its instructions, the files of the library's functions, and their crate and module.
MODULES = {
    "scalar": ("The scalar instructions by name", ("SCALAR_UNARIES", "SCALAR_BINARIES"), "wasmi_scalar/src/wasm.rt", "wasmi_scalar", "wasm"),
    "loads": ("The loads by name", ("LOADS",), "wasmi_access/src/wasm.rt", "wasmi_access", "wasm"),
    "vector_loads": ("The loads of vectors by name", ("VECTOR_LOADS",), "wasmi_vector_access/src/**/*.rt", "wasmi_vector_access", "simd"),
    "stores": ("The stores by name", ("STORES",), "wasmi_access/src/wasm.rt", "wasmi_access", "wasm"),
}
BY_HAND = ("i8x16_shuffle", "v128_store")   # the functions of the header that no list has
SHAPES = {"UNARY": ("SCALAR_UNARIES",), "BINARY": ("SCALAR_BINARIES",), "LOAD": ("LOADS", "VECTOR_LOADS"), "STORE": ("STORES",)}
# The words of clauses that the functions of the library don't have, and where they stand.
OWN = {
    "Gives": "Rattle.wasmi_c.specs.Instruction", "StoresBytes": "Rattle.wasmi_c.specs.Instruction",
    "as_raw": "Rattle.wasmi_ops.specs.LoadStoreOps", "raw_of_vector": "Rattle.wasmi_raw.specs.RawVal",
}


def texts(files):
    return "\n".join(path.read_text() for path in sorted(CRATES.glob(files)))


def functions(files):
    """The functions of some files: by name, its parameters, what it gives, and its clause in one line."""
    found = {}
    for name, parameters, given, clause in FUNCTION.findall(texts(files)):
        pairs = [tuple(it.split(": ")) for it in " ".join(parameters.split()).rstrip(",").split(", ")]
        found[name] = (pairs, given, " ".join(clause.split()))
    return found


def imports(files, clauses):
    """The lines that import the words of clauses."""
    where = dict(OWN)
    for module, words in re.findall(r"^ghost use ([\w.]+)\.\{(.*)\};", texts(files), re.M):
        where |= {word: module for word in words.split(", ")}
    used = set(re.findall(r"\w+", clauses)) | {f"◌{sign}◌" for sign in clauses.split()}
    by_module = {}
    for word, module in where.items():
        if word in used:
            by_module.setdefault(module, []).append(word)
    lines = [f"ghost use {module}.{{{', '.join(words)}}};\n" for module, words in by_module.items()]
    for module, name in set(re.findall(r"^ghost use ([\w.]+) as (\w+);", texts(files), re.M)):
        if f"{name}." in clauses:
            lines.append(f"ghost use {module} as {name};\n")
    return "".join(sorted(lines, key=lambda line: ("std" not in line, line)))


class Exported:
    """The function of C for a function of the library."""

    def __init__(self, name, function, module):
        self.parameters, given, clause = function
        self.name, self.given = f"wasmi_{name}", given
        call = f"{module}::{name}({', '.join(it for it, _ in self.parameters)})"
        trapping = re.fullmatch(r"Result<(.*), TrapCode>", given)
        if given == "(i64, i64)":
            self.parameters = self.parameters + [("lo", "&mut i64"), ("hi", "&mut i64")]
            self.given, self.body = None, f"leave_pair({call}, lo, hi)"
            self.clauses = [clause.replace("result.0", "lo.new").replace("result.1", "hi.new")]
        elif not trapping:
            self.body, self.clauses = call, [clause]
        elif trapping[1] == "()":
            bytes_written = re.fullmatch(r"IsStore (memory\.old \(ptr \+ offset\)) (.*) memory\.new result", clause)
            self.given, self.body = "u8", f"status_of({call})"
            self.clauses = [f"StoresBytes {bytes_written[1]} {bytes_written[2]} memory.new result"]
        else:
            value = re.fullmatch(r"result ≡ (.*)", clause)[1]
            is_vector = trapping[1] == "V128"
            self.parameters = self.parameters + [("value", "&mut RawVal" if is_vector else f"&mut {trapping[1]}")]
            self.given, self.body = "u8", f"leave_vector({call}, value)" if is_vector else f"leave_item({call}, value)"
            value = f"as_raw raw_of_vector ({value})" if is_vector else value
            self.clauses = [f"Gives ({value})", "value.old value.new result"]

    def signature(self):
        given = f" -> {self.given}" if self.given else ""
        pairs = [f"{name}: {kind}" for name, kind in self.parameters]
        line = f'pub extern "C" fn {self.name}({", ".join(pairs)}){given}'
        if len(line) <= WIDTH:
            return line + "\n"
        return f'pub extern "C" fn {self.name}(\n' + "".join(f"    {it},\n" for it in pairs) + f"){given}\n"

    def clause(self):
        line = f"    ensures {{ {' '.join(self.clauses)}\N{NO-BREAK SPACE}}}"
        return textwrap.fill(line, WIDTH, subsequent_indent=" " * 8, break_on_hyphens=False).replace("\N{NO-BREAK SPACE}", " ") + "\n"

    def source(self):
        return f"\n#[unsafe(no_mangle)]\n{self.signature()}{self.clause()}{{\n    {self.body}\n}}\n"

    def prototype(self):
        made = []
        for name, kind in self.parameters:
            found = re.fullmatch(r"(&mut |&|)(\[)?(\w+)\]?", kind)
            item, const = C_TYPES[found[3]], "const " if found[1] == "&" else ""
            made.append(f"{const}{item} {'*' if found[1] else ''}{name}")
            if found[2]:
                made.append(f"size_t {name}_len")
        return f"{C_TYPES[self.given] if self.given else 'void'} {self.name}({', '.join(made)});"


def exported(key):
    """The functions of a module, in the order of its lists."""
    _, lists, files, _, module = MODULES[key]
    found = functions(files)
    missing = [name for it in lists for name in names_of(it) if name not in found]
    if missing:
        sys.exit(f"crates/{files} has no function {missing[0]} that tools/by_name.py reads")
    return [Exported(name, found[name], module) for it in lists for name in names_of(it)]


def source(key):
    """The text of a module of wasmi_c_lib."""
    text, _, files, crate, module = MODULES[key]
    made = exported(key)
    helpers = sorted({it.body.split("(")[0] for it in made if it.body.startswith(("leave_", "status_of"))})
    uses = f"use wasmi_c::instruction::result::{'{' + ', '.join(helpers) + '}' if len(helpers) > 1 else helpers[0]};\n"
    uses += "use wasmi_raw::RawVal;\n" if any("RawVal" in kind for it in made for _, kind in it.parameters) else ""
    uses = "".join(sorted([*uses.splitlines(True), f"use {crate}::{module};\n"]))
    clauses = " ".join(" ".join(it.clauses) for it in made)
    about = f"{text}, each described at the function of its name in `{crate}::{module}`. `tools/header` writes this file."
    head = f"{textwrap.fill(about, WIDTH, initial_indent='//! ', subsequent_indent='//! ')}\n//!\n//! A status is 0, or the number of the trap; then nothing is written.\n"
    return f"{head}{imports(files, clauses)}\n{uses}" + "".join(it.source() for it in made)


def prototypes():
    """The lines of include/wasmi_instructions.h that tools/header writes."""
    lines = []
    for key, (text, *_) in MODULES.items():
        lines.append(f"/* {text}. */\n")
        for it in exported(key):
            lines += [line + "\n" for line in broken(it.prototype())]
        lines.append("\n")
    lines.append("/* These functions, by the shape in which wasmi_core.h has the numbers of their instructions. */\n")
    for shape, lists in SHAPES.items():
        words = " ".join(f"X({name})" for it in lists for name in names_of(it))
        rows = textwrap.wrap(words, 114, initial_indent="    ", subsequent_indent="    ")
        lines.append(f"#define WASMI_{shape}_FUNCTIONS(X) \\\n" + " \\\n".join(rows) + "\n")
    return "".join(lines) + short_names()


def short_names():
    """The lines by which each function can be called without the i of its prefix."""
    names = [*BY_HAND, *(it.name.removeprefix("wasmi_") for key in MODULES for it in exported(key))]
    defined = "".join(f"#define wasm_{name} wasmi_{name}\n" for name in names)
    return f"\n/* Their short names. */\n#ifndef WASMI_CORE_NO_SHORT_NAMES\n{defined}#endif\n"


def broken(line):
    """A prototype in lines of at most 120 columns."""
    indent, made = line.index("(") + 1, []
    while len(line) > 120:
        cut = line.rindex(", ", 0, 119) + 1
        made.append(line[:cut])
        line = " " * indent + line[cut + 1:]
    return made + [line]
