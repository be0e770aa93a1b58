"""The docs of the Rust crate: links from contracts to the definitions of specs/, the pages of these, and the docs of proved items for
the functions of rust/src that call them."""

import html
import re
import urllib.parse

from .source import Unknown
from .tables import ERRORS, LOADED, METHOD_NAMES, ON_FLOATS, module_of, standard_name

NAME = r"[^\s(){}\[\].,;:=λ→\"|]+"
WORD = re.compile(rf"(\w+\.)?({NAME})")
USE = re.compile(r"(?:ghost |pub )?use Rattle\.(\w+)\.specs\.?([\w.]*?)(?:\.?\{(.*)\}|\s+as\s+(\w+))?;?", re.S)
DECLARED = re.compile(rf"^(?: *(?:(?:abbrev|unfoldable|opaque|pub|record|data) )+(?!mod |use )| +(?=(?:[A-Z]\w* )+: ))({NAME}(?: [A-Z]\w*)*)(?= |$)", re.M)
NAMED = re.compile(r"docs!\((\w+) ([\w.]+)\)")
# The functions of a type in rust/src that pass on to the proved ones, and the head of one of these.
METHODS = re.compile(r"methods!\((\w+) (\w+):([\w\s]+|\s*\.\.)\);")
METHOD = re.compile(r"pub fn \w+(?:<.*?>)?\(([^)]*)\)((?: -> .*)?)$")
GIVEN = re.compile(r"(\w+): ([^,]+)")
BORROWED = re.compile(r"\b(ElementSegmentRef|ResourceLimiterRef)\b(?:<L>)?")
# The instructions of a module that rust/src exports, and the functions of a module's text with their attributes, parameters and results.
EXPORTED = re.compile(r"^instructions!\((\w+) (\w+)\);", re.M)
INSTRUCTION = re.compile(r"^    #\[(?:must_use|inline.*)\]\n(?:    #\[.*\]\n)*    pub fn (\w+)\(([^)]*)\) -> (.*) \{$", re.M)


def declared(text):
    """The words that a text declares, of which a line may have several."""
    return " ".join(DECLARED.findall(text)).split()


class Links:
    """The links of a file: what its imports bring in leads to a place on a page."""

    def __init__(self, specs, uses):
        self.places = {}
        for crate, file, words, alias in (USE.fullmatch(it).groups() for it in uses if USE.fullmatch(it)):
            for word in re.split(r",\s*", words or ""):
                meant, _, own = word.strip().partition(" as ")
                self.places[own or meant] = specs.place(crate, file, meant)
            if not words:
                self.places[(alias or file.split(".")[-1]) + "."] = lambda word, crate=crate, file=file: specs.place(crate, file, word)

    def place(self, prefix, word):
        """The place of a word with what stands before it: nothing, or a name with a dot."""
        module = self.places.get(prefix)
        return module(word) if module else self.places.get(word) if not prefix else None

    def of(self, contract):
        """The lines below a contract: the definitions that it uses, in turn."""
        found = {word: place for prefix, word in WORD.findall(contract) if (place := self.place(prefix, word))}
        return ["", "Definitions: " + ", ".join(f"[`{word}`]({place})" for word, place in found.items()) + "."] if found else []


class Specs:
    """The definitions of the crates of a library."""

    def __init__(self, source, crates):
        self.crates, self.pages, self.places = crates, {}, {}
        for crate in crates:
            for path in sorted((source / crate / "specs").glob("*.antt")):
                if path.stem != "Lib":
                    self.pages[crate, path.stem] = text = path.read_text()
                    for word in declared(text):
                        self.places.setdefault(word, []).append((crate, path.stem))

    def links(self, uses):
        return Links(self, uses)

    def place(self, crate, file, word):
        """The place of a word that a file of specs/ has or passes on, or none."""
        places = list(dict.fromkeys(self.places.get(word, ())))
        near = [it for it in places if it == (crate, file)] or [it for it in places if it[0] == crate] or places
        return f"crate::specs::{module_of(near[0][0])}::{near[0][1]}Specs#{urllib.parse.quote(word)}" if len(near) == 1 else None

    def module(self):
        """The module of all pages."""
        lines = ["//! The definitions that the contracts cite, in antt, the language of the proofs.\n#![allow(non_snake_case)]\n"]
        for crate in self.crates:
            pages = [f'#[doc = r####"{self.page(*its, text)}"####]\npub mod {its[1]}Specs {{}}\n' for its, text in self.pages.items() if its[0] == crate]
            if pages:
                lines.append(f"/// Definitions of `{crate}`.\npub mod {module_of(crate)} {{\n{''.join(pages)}}}\n")
        return "".join(lines)

    def page(self, crate, file, text):
        """The page of a file: its first comment, then the rest, with a place for each word that it declares, and links."""
        about, links = re.match(r"(?:--.*\n)*", text)[0], Links(self, re.findall(r"^(?:pub )?use .*", text, re.M))
        links.places |= {word: self.place(crate, file, word) for word in declared(text)}

        def linked(found):
            place, said = links.place(*found.groups()), html.escape(found[0])
            if found[2][0] == "«":
                return f'<b id="{said[1:-1]}">{said[1:-1]}</b>'
            return f'<a href="../../{re.sub("::(?=.*#)", "/", place[14:]).replace("#", "/index.html#")}">{said}</a>' if place else said
        rows = DECLARED.sub(lambda it: it[0][:-len(it[1])] + " ".join(f"«{word}»" for word in it[1].split()), text[len(about):].strip("\n")).split("\n")
        rows = [html.escape(row) if row.lstrip().startswith("--") else WORD.sub(linked, row) for row in rows]
        said = re.sub(r"([\[\]<>*_`\\])", r"\\\1", " ".join(line.strip("- ") for line in about.splitlines()))
        return f"{said}\n\n<pre><code>{chr(10).join(rows)}\n</code></pre>\n"


def places(lines, path):
    """The lines where an item begins that is named as ITEM, TYPE.FUNCTION or TYPE.contract."""
    owner, _, name = path.removesuffix(".contract").partition(".")
    heads = rf" *(?:pub )?(?:const )?(?:fn|struct|enum|trait) {owner}\b"
    if name:
        heads = rf" *(?:pub )?trait {owner}\b| *impl\b.*\b{owner}(?:<[^>]*>)? (?:\{{|where)"
    for n in (n for n, line in enumerate(lines) if re.match(heads, line)):
        if name:
            end = lines.index(re.match(" *", lines[n])[0] + "}", n)
            n = next((k for k in range(n, end) if re.match(rf" *(?:pub )?(?:const )?fn {name}\b", lines[k])), None)
        if n is not None:
            yield n


def above(lines, n):
    """The docs and attributes of an item that begins in a line."""
    first = n
    while lines[first - 1].lstrip().startswith(("///", "#[")):
        first -= 1
    return [line.strip() for line in lines[first:n]]


def docs_of(text, path):
    """The docs of an item of a crate's generated text."""
    lines = text.split("\n")
    for n in places(lines, path):
        docs = [line[3:].removeprefix(" ") for line in above(lines, n) if "///" in line]
        if path.endswith(".contract"):
            docs = docs[next((k for k, line in enumerate(docs) if line in ("# Contract", "# Model")), len(docs)):]
        if docs:
            return "\n".join(docs)
    raise Unknown(f"no docs of {path}, which rust/src includes")


def passed_on(crates, standard, part, item, name):
    """A function of a type of rust/src that passes on to that of the proved type, `Proved`, which its field `0` has."""
    lines = crates[part].split("\n")
    n = next(places(lines, f"{item}.{name}"))
    head = " ".join(" ".join(lines[n:]).partition(" {")[0].split()).replace("( ", "(").replace(", )", ")")
    head = re.sub(rf"\b{item}\b(?:<\w>)?|\bMemory<'r>", "Self", BORROWED.sub(r"\1<'_>", head)).replace("'r ", "'static ")
    given, result = METHOD.match(head).groups()
    arguments = [re.sub(r"(\w+): (?:(&(?:mut )?)Self$)?.*", lambda it: f"{it[2]}{it[1]}.0" if it[2] else it[1], it) for it in given.split(", ")]
    is_method = arguments[0].endswith("self")
    body = f"{'self.0.' if is_method else 'Proved::'}{name}({', '.join(arguments[is_method:])})"
    body = f"with!(limiter => {body})" if "limiter" in given else body
    called = METHOD_NAMES.get(f"{item}.{name}", f"{item.removeprefix('Linear').lower()}.{name}")
    marks = [f'doc(alias = "{called}")'] * (called in standard) + ["must_use"] * ("#[must_use]" in above(lines, n)) + ["inline"]
    marks = [f"        #[{mark}]\n" for mark in [f"doc = docs!({part} {item}.{name})", *marks]]
    return f"""\
    ({part} {item} {name}) => {{
{"".join(marks)}        pub fn {name}({given}){result} {{
            {body}{".map(Self)" * ("Result<Self" in result)}
        }}
    }};
"""


def all_methods(text, item):
    """The public functions of a type, but for the forms of others that take a meter, or a limiter that is lent."""
    impls = re.findall(rf"^( *)impl\b[^{{]*\b{item}(?:<[^>]*>)? \{{\n(.*?)^\1\}}$", text, re.M | re.S)
    names = [name for _, body in impls for name in re.findall(r"^ *pub (?:const )?fn (\w+)", body, re.M)]
    return " ".join(name for name in names if not name.endswith(("_metered", "_lending")))


def included(crates, api, standard):
    """The text of api.rs: an arm of the macro `docs` for each item that the files of the API name, and the methods that pass on."""
    texts = [path.read_text() for path in sorted(api.glob("*.rs"))]
    lists = [(part, item, names.strip()) for text in texts for part, item, names in METHODS.findall(text)]
    whole = {(part, item): all_methods(crates[part], item) for part, item, names in lists if names == ".."}
    passing = [(part, item, name) for part, item, names in lists for name in whole.get((part, item), names).split()]
    named = [it for text in texts for it in NAMED.findall(text)] + [(part, f"{item}.{name}") for part, item, name in passing]
    named += [(part, name) for part, _, functions in instructions(crates, api) for name, given, _ in functions if "ImmLaneIdx" in given]
    arms = [f'    ({part} {name}) => {{ r####"{docs_of(crates[part], name)}\n"#### }};\n' for part, name in sorted(set(named))]
    return f"""//! What the types of the API pass on to proved items, the re-exports of instructions, and the docs of both.
macro_rules! docs {{
{"".join(arms)}}}

/// Functions of a type that pass on to those of the proved one, `Proved`, which is its field `0`.
macro_rules! methods {{
{"".join(f"    ({part} {item}: ..) => {{ methods! {{ {part} {item}: {names} }} }};{chr(10)}" for (part, item), names in sorted(whole.items()))}\
    ($part:ident $item:ident: $($name:ident)*) => {{ $(methods! {{ $part $item $name }})* }};
{"".join(passed_on(crates, standard, *it) for it in sorted(passing))}}}
"""


def over_lanes(part, file, name, given, result):
    """The text of an instruction over the crate's own indices of lanes."""
    passed = []
    for parameter in filter(str.strip, given.split(",")):
        its, ty = map(str.strip, parameter.split(":"))
        index = re.search(r"ImmLaneIdx\d+", ty)
        passed.append(f"{its}.map({index[0]}::proved)" if index and ty.startswith("[") else f"{its}.proved()" if index else its)
    mark = "" if result.startswith("Result<") else "        #[must_use]\n"
    return f"""\
        #[doc = docs!({part} {name})]
{mark}        #[inline]
        pub fn {name}({" ".join(given.split())}) -> {result} {{
            crate::proved::{part}::{file}::{name}({", ".join(passed)})
        }}
"""


def on_floats(name, given, result, standard):
    """The function on floats that passes on their bits to that of an instruction on integers, or no text."""
    own, width = ON_FLOATS.get(name), re.search("32|64|$", name)[0]
    if not own:
        return ""
    integer, number, is_signed = f"{'i' if name.startswith('i') else 'u'}{width}", f"f{width}", name.startswith("i")
    given = re.sub(rf"\b(value|item): {integer}", rf"\1: {number}", " ".join(given.split()))
    bits = f".to_bits(){'.cast_signed()' * is_signed}"
    call = f"{name}({', '.join(it + bits * (ty == number) for it, ty in GIVEN.findall(given))})"
    body = call
    if result == integer:
        body = f"{number}::from_bits({call}.cast_unsigned())"
    elif f"<{integer}," in result:
        body = f"{call}.map({number}::from_bits)"
    errors = ERRORS["IsStore " if "store" in name else LOADED].replace("`MemoryOutOfBounds`", "[`MemoryOutOfBounds`](TrapCode::MemoryOutOfBounds)")
    marks = f"        ///\n        /// # Errors\n        ///\n        /// {errors}\n" if "Result" in result else "        #[must_use]\n"
    marks += f'        #[doc(alias = "{standard_name(own)}")]\n' * (standard_name(own) in standard)
    return f"""\
        /// [`{name}`] of the bits of a float: that one is proved; that floats become bits and back isn't.
{marks}        #[inline]
        pub fn {own}({given}) -> {result.replace(integer, number)} {{
            {body}
        }}
"""


def instructions(crates, api):
    """Of each module of instructions that the files of the API export, its functions, with their parameters and results."""
    for part, file in sorted(it for path in api.glob("*.rs") for it in EXPORTED.findall(path.read_text())):
        text = re.search(rf"^pub mod {file} \{{\n(.*?)^\}}", crates[part], re.S | re.M)[1]
        yield part, file, INSTRUCTION.findall(text)


def exports(crates, api, standard):
    """The text of a macro that exports the instructions of a module, with their names in the standard: rustdoc's search finds them by these.

    They stand at the export, since rustdoc 1.95 leaves out the names that stand at a function which is exported elsewhere."""
    lines = []
    for part, file, functions in instructions(crates, api):
        lines.append(f"    ({part} {file}) => {{\n")
        for name, given, result in functions:
            if standard_name(name) in standard:
                lines.append(f'        #[doc(alias = "{standard_name(name)}")]\n')
            is_over_lanes = "ImmLaneIdx" in given
            lines.append(over_lanes(part, file, name, given, result) if is_over_lanes else f"        pub use crate::proved::{part}::{file}::{name};\n")
            lines.append(on_floats(name, given, result, standard))
        lines.append("    };\n")
    return f"""
/// Exports the instructions of a module. Those with the index of a lane are functions over the crate's own indices.
macro_rules! instructions {{
{"".join(lines)}}}
"""
