"""What docs/MEMORY.md has to name: the calls of a machine that may take memory, by the law on reserved room; the public functions that take an allocator or whose
result could say that memory was refused; and the functions of the headers of include/ whose comments say so."""
import re

from libraries import TOP

DOCUMENT = "docs/MEMORY.md"
LAW = "crates/wasmi_laws/specs/Reserved.antt"
# The crates for C, which the headers stand for, and programs, tests and examples.
OTHERS = re.compile(r"wasmi_(c|c_lib|replay|\w+_tests|tests|example_\w+)$")
# Types of results that could say that memory was refused, or that calls may have been refused it.
COULD_SAY = re.compile(
    r"\b(Alloc(Error|Failed)|(Memory|Table|Segment|FuncType|Line|Parse|Pool|Add|Reserve|RunInto)Error|Reply|TooManyCalls|Ran|Status|Replayed)\b")
TYPE = re.compile(r"^impl(?:<.*?>)? (?:\w+(?:<.*>)? for )?(\w+)")
# A contract none of whose refusals is want of memory.
WRITES = re.compile(r" ensures(?: \w+)? \{ Writes(MemoryRange|Table)\b")
FUNCTION = re.compile(r"^ *pub (?:const )?fn (\w+)")
SAID_IN_C = re.compile(r"\bNO_ROOM|OUT_OF_MEMORY|out of memory")
PROTOTYPE = re.compile(r"^\w[\w ]*?\*? ?(wasmi_\w+)\(", re.M)
# The tables of the document, by their headings.
CALLS, REFUSED, NEVER, OF_C = ("Calls of a machine", "Functions that may be refused memory", "Functions that never are", "Functions of C")


def heads(text):
    """Each public function of a source, with its type before its name where it has one, its head in one line, and whether its contract is a write."""
    type, lines = None, text.split("\n")
    for number, line in enumerate(lines):
        if found := TYPE.match(line):
            type = found[1]
        elif line == "}":
            type = None
        if found := FUNCTION.match(line):
            head = " ".join(" ".join(lines[number:number + 16]).split())
            own = re.split(r" (?:pub|fn|///) ", head.partition(found[1])[2])[0]
            yield f"{type}::{found[1]}" if type else found[1], re.split(r" ensures| requires| \{|;", head)[0], bool(WRITES.search(own))


def functions():
    """The public functions, by crate, that take an allocator or whose result could say that memory was refused, unless their contract says otherwise."""
    for path in sorted((TOP / "crates").glob("*/src/**/*.rt")):
        crate = path.relative_to(TOP / "crates").parts[0]
        for name, head, writes in heads(path.read_text()) if not OTHERS.match(crate) else ():
            if not writes and (re.search(r"\balloc: ", head) or COULD_SAY.search(head.rpartition("->")[2] if "->" in head else "")):
                yield crate, name


def calls():
    """The calls of which the law asks something."""
    return re.findall(r"(?m)^NeedsNoMemory s \((\w+)", (TOP / LAW).read_text())


def said_in_c():
    """The functions of each header whose comment says that memory may be refused."""
    for path in sorted((TOP / "include").glob("*.h")):
        for comment, declared in re.findall(r"/\*(.*?)\*/([^/]*)", path.read_text(), re.S):
            yield from ((path.name, name) for name in PROTOTYPE.findall(declared) if SAID_IN_C.search(comment))


def rows(heading):
    """The rows of the table below a heading of the document: the first cell, and the names in the second one."""
    section = (TOP / DOCUMENT).read_text().partition(f"\n## {heading}\n")[2].partition("\n## ")[0]
    cells = [line.strip("| ").split(" | ") for line in section.split("\n") if line.startswith("| `")]
    return [(row[0].strip("`"), name) for row in cells for name in re.findall(r"`([^`]+)`", row[1])]


def findings():
    """What the document lacks, and what it names that isn't there."""
    named = [*rows(REFUSED), *rows(NEVER)]
    wanted = set(functions())
    yield from (f"{crate}: {name} stands in no table" for crate, name in sorted(wanted - set(named)))
    yield from (f"{crate}: {name} takes no allocator, and its result can't say that memory was refused" for crate, name in sorted(set(named) - wanted))
    yield from (f"{crate}: {name} stands in two rows" for crate, name in sorted({it for it in named if named.count(it) > 1}))
    yield from (f"{header}: {name} stands in no row" for header, name in sorted(set(said_in_c()) - set(rows(OF_C))))
    texts = {path.name: path.read_text() for path in (TOP / "include").glob("*.h")}
    yield from (f"{header} has no {name}" for header, name in rows(OF_C) if not re.search(rf"\b{name}\(", texts.get(header, "")))
    section = (TOP / DOCUMENT).read_text().partition(f"\n## {CALLS}\n")[2].partition("\n## ")[0]
    told = re.findall(r"(?m)^\| `(\w+)`", section)
    if told != calls():
        yield f"the calls are {', '.join(calls())}, by {LAW}"
