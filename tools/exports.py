"""The functions of C over those of wasmi_c, which tools/header writes to crates/wasmi_c_lib/src by the rows of tools/exports.toml. Each is
one line, and states the clauses of the function that it calls. Where that is a method of a machine or a pool, the clause is about the
handle that holds it: the method's clause for what is held, and what is given where nothing is."""
import functools
import re
import sys
import textwrap
import tomllib

from by_name import CRATES, TOP, WIDTH, Exported

FILES = tomllib.loads((TOP / "tools/exports.toml").read_text())
SOURCES = sorted((CRATES / "wasmi_c/src").rglob("*.rt"))
ROWS = re.compile(r"^\n((?:wasmi_.*\n)+)", re.M)
ROW = re.compile(r"(wasmi_\w+)(?:\((.*)\))? = (\w+)::(\w+)")
CLAUSE = re.compile(r"^ *ensures (?:(\w+) )?\{ (.*?) \}$", re.M | re.S)
# What handles hold: the field that has it, the handle, and the totals where it holds none.
HELD = {"LimitedMachine": ("machine", "Handle", "totals_in NO_MACHINE 0 0"), "TenantPool": ("pool", "PoolHandle", "totals_in NO_POOL 0 0")}
HANDLES = [handle for _, handle, _ in HELD.values()]
# Parameters of the methods of what is held that C has by another name.
OTHER_NAMES = {
    "number: u16": "op", "dst_memory: usize": "memory", "dst: u64": "to", "src_memory: usize": "source",
    "src: u64": "from", "src: u32": "from", "len: u64": "count", "len: u32": "count",
}
FIXED = "\N{NO-BREAK SPACE}"


@functools.cache
def text_of(path):
    """The text that has a function: that of a file, or the methods of a type."""
    if path in HELD or path in HANDLES:
        return "".join(re.findall(rf"^impl {path} \{{\n.*?^\}}", "\n".join(it.read_text() for it in SOURCES), re.M | re.S))
    return "".join(it.read_text() for it in SOURCES if it.stem == path.removeprefix("on_"))


def function(path, name):
    """A function of wasmi_c: its parameters but for `self`, what it gives, and its clauses, each with its name."""
    found = re.findall(rf"^( *)pub fn {name}\(([^)]*)\)(?: -> (\w+))?\n((?:\1 .*\n)+)\1\{{", text_of(path), re.M)
    indent, parameters, given, text = found[0] if len(found) == 1 else [""] * 4
    pairs = [tuple(it.split(": ")) for it in " ".join(parameters.split()).rstrip(",").split(", ") if ": " in it]
    clauses = [(label, said.replace(f"\n{indent}", "\n")) for label, said in CLAUSE.findall(text)]
    if not clauses or len(clauses) != len(re.findall(r"^ *(?:ensures|requires)\b", text, re.M)):
        sys.exit(f"crates/wasmi_c has no function {path}::{name} that tools/exports.py reads")
    return pairs, given, clauses


def fixed(text):
    """A text that stays on one line."""
    return text.replace(" ", FIXED)


def clause(label, *parts):
    """A clause of which each part begins a line."""
    starts = [f"    ensures {label} {{ " if label else "    ensures { "] + [" " * 8] * (len(parts) - 1)
    texts = zip(starts, [*parts[:-1], f"{parts[-1]}{FIXED}}}"])
    made = [textwrap.fill(text, WIDTH, initial_indent=start, subsequent_indent=" " * 8, break_on_hyphens=False) for start, text in texts]
    return "\n".join(made).replace(FIXED, " ") + "\n"


def model(kind):
    """The values of a type."""
    _, is_array, item = re.fullmatch(r"(&mut )?(\[)?(\w+)\]?", kind).groups()
    return "List " * bool(is_array) + (item if item[0].isupper() else "ℕ")


def in_c(name, kind):
    """The name that C has for a parameter of a method of what is held."""
    return OTHER_NAMES.get(f"{name}: {kind}", name)


class Export(Exported):
    """The function of C of a row."""

    def __init__(self, name, order, path, callee):
        self.name = name
        self.parameters, self.given, clauses = function(path, callee)
        if path in HELD:
            self.set_held(path, callee, clauses)
            return
        call = f"{callee}({', '.join(it for it, _ in self.parameters)})"
        if path in HANDLES:
            self.add_handle(path)
            clauses = [(label, said.replace("self.", "handle.")) for label, said in clauses]
        self.body = (f"handle.{call}" if path in HANDLES else f"{path}::{call}") + ";" * (not self.given)
        self.parameters.sort(key=lambda it: order.split(", ").index(it[0]) if order else 0)
        self.clauses = [f"    ensures {label}{' ' * bool(label)}{{ {said} }}\n" for label, said in clauses]

    def add_handle(self, handle):
        """Puts the handle before the parameters, but for the allocator."""
        first = self.parameters[:1] if ("alloc", "Global") in self.parameters else []
        self.parameters = [*first, ("handle", f"&mut {handle}"), *self.parameters[len(first):]]

    def set_held(self, path, callee, clauses):
        """Makes it the call of a method of what a handle holds, which has a clause, and perhaps one of the caps that it keeps."""
        if [label for label, _ in clauses[1:]] not in ([], ["caps"]):
            sys.exit(f"{path}::{callee} has clauses that tools/exports.py doesn't know")
        word, handle, totals = HELD[path]
        said = " ".join(clauses[0][1].split())
        for name, kind in self.parameters:
            said = re.sub(rf"\b{name}\b", in_c(name, kind), said)
        self.parameters = [(in_c(name, kind), kind) for name, kind in self.parameters]
        left = next((it for it in self.parameters if it[1].startswith("&mut ")), None)
        status = f"NO_{word.upper()}"
        none = {"u8": status, "ReplyStruct": f"only {status}", "Totals": totals}[self.given]
        none = f"({none}, {left[0]}.old)" if left else f"({none})" if " " in none else none
        self.clauses = (machine_clauses if word == "machine" else pool_clauses)(said, self.given, left, none)
        returned = {"u8": f"{status}, ", "ReplyStruct": "", "Totals": f"Totals::from_amounts({status}, 0, 0), "}[self.given]
        self.body = f"on_{word}!(handle, {returned}{word} => {word}.{callee}({', '.join(it for it, _ in self.parameters)}))"
        self.add_handle(handle)

    def clause(self):
        return "".join(self.clauses)


def machine_clauses(said, given, left, none):
    """The clause of a call on the machine of a handle: what is said of the machine, or what there is where the handle holds none."""
    reply = f"(result, {left[0]}.new)" if left else "result"
    ends = f"{fixed(none)} {fixed(f'handle.old.machine.held {reply} handle.new.machine.held')}"
    if found := re.fullmatch(rf"(.*) self\.\w+ {re.escape(reply)} self\.\w+", said):
        return [clause("", f"{fixed(f'OnHeld ({found[1]})')} {ends}")]
    name = "left" if left else given.lower()
    names = {r"self\.new": "machine'", r"self\.\w+": "machine", r"\bresult\b": f"{name}.0" if left else name}
    names |= {rf"\b{left[0]}\.new": f"{name}.1"} if left else {}
    if "self.new" not in said:
        said = f"(self.new ≡ self.old) × {f'({said})' if '≡' in said else said}"
    for old, new in names.items():
        said = re.sub(old, new, said)
    whole = fixed(f"(λ machine {name} machine'. {said})").replace(f"{FIXED}×", " ×")
    return [clause("", "OnHeld" + (f" {{R = {model(given)} × {model(left[1])}}}" if left else ""), whole, ends)]


def pool_clauses(said, given, left, none):
    """The clauses of a call on the pool of a handle, which keeps its caps."""
    step = re.sub(r" self\.\w+ self\.\w+$", "", said)
    if step == said:
        step = f"λ pool pool'. (pool' ≡ pool) × ({said.replace('self.now', 'pool')})"
    start = [f"ActsOnHeld {none} handle.old.pool.held result handle.new.pool.held"]
    if left:
        reply = f"(result, {left[0]}.new)"
        step = step.replace(reply, fixed(reply))
        start = [f"ActsOnHeld {{R = {model(given)} × {model(left[1])}}} {none}", f"handle.old.pool.held {reply} handle.new.pool.held"]
    return [clause("step", *start, f"({step})"), clause("caps", "KeepsCaps handle.old.pool.held handle.new.pool.held")]


def written(rows):
    """The functions of rows."""
    lines = [(line, ROW.fullmatch(line)) for line in rows.splitlines()]
    if wrong := [line for line, found in lines if not found]:
        sys.exit(f"tools/exports.toml has no row in {wrong[0]}")
    return "".join(Export(*found.groups()).source() for _, found in lines)


def number_of(version):
    """The number of a version of the headers."""
    major, minor, patch = map(int, version.split("."))
    return major << 16 | minor << 8 | patch


def source(key, version):
    """The text of a module of wasmi_c_lib, of a version of the headers."""
    number = number_of(version)
    text = FILES[key].replace("VERSION_LITERAL", f"{number:_}").replace("VERSION", str(number))
    return ROWS.sub(lambda rows: written(rows[1]), text)
