"""The rules that make Rust of a source in Rattle. Its contracts, ghost items and proofs are left out; what else is changed:

| In Rattle | In Rust |
|---|---|
| `requires` of a `pub fn` | an `assert!` of the table `REQUIRES` and a section `Panics` of its docs, or nothing if Rust tests it or no test can |
| `requires` of a function of a public trait | an `assert!` of the table `OF_TRAITS` in the implementations |
| a clause of a form of `ERRORS` | a section `Errors` of the function's docs |
| docs "As `f`, with .." of a function that returns a `Result` | the same, with the errors of `f` |
| a clause, `impl Model`, a ghost member | a section `Contract` or `Model` of the item's docs |
| `derive(Drop)`, `T: Drop`, an `impl Drop` that only takes apart | nothing: Rust drops every value |
| a parameter, field or argument `alloc`, `rt.alloc()` | nothing: Rust has one allocator |
| `rt` of tests and programs, `println!(rt; ..)?` | nothing, `writeln!(std::io::stdout(), ..)?` |
| `fn fmt<W: Write>(.., &mut Formatter<W>)` | `fn fmt(.., &mut Formatter<'_>)` |
| `impl Clone` with a `Result`, `x.clone()?` | `TryClone`, `x.try_clone()?` |
| `vec![in a; x; n]`, `s.to_vec(a)`, `try_map` | `Vec::filled(x, n)`, `Vec::of`, `try_to_vec`, `try_map_all` of the shim |
| `Vec`, `std::alloc`, `std::rc`, `std::simd`, `arrayvec` | the shim's, `crate::rattle` |
| a trait whose functions have `Result<Self, ..>` | the same with `Sized` |
| a `pub fn` that returns something else than a `Result` or a `&mut`, and takes no `&mut` | `#[must_use]` |
| a function without a hint | `#[inline]`, or `#[inline(always)]` if it returns a type of `INLINED_ALWAYS` |
| types of one letter in a contract | a legend of the table `LEGENDS` below it |
| fields that Rust hides | a list of them in the docs of their struct |
| a variant that is named after an instruction, without docs | a link to the function |
| `laws.rt` | under `cfg(any(doc, test))` |
| a crate | a module of `crate::proved` |
| `std::` | `core::` or `alloc::`, except in the crates that need `std::io` |

A form that no rule knows ends the program. tools/eraser/edits.py lists what is edited after that."""

import re

from .source import MARK, Source, Unknown, body, closing
from .tables import (ATTRIBUTES, ATTRIBUTES_OF_C, ATTRIBUTES_OF_TESTS, DERIVES, ERRORS, HIDDEN_FIELDS, INLINED_ALWAYS, LEGENDS, MACROS, MACROS_OF_TESTS, OF_TESTS, OF_TRAITS,
                     PLACES_OF_ERRORS, REQUIRES, STD_KEPT, UNTESTED, module_of_instruction)

ATTRIBUTES_OF_ITEM = r"(?P<attributes>(?:^ *#\[[^\]]*\]\n)*)"
FN = re.compile(ATTRIBUTES_OF_ITEM + r"^(?P<indent> *)(?P<before>(?:pub(?:\(\w+\))? )?(?:const )?)fn (?P<name>\$?\w+)", re.M)
ITEM = re.compile(
    ATTRIBUTES_OF_ITEM + r"^(?P<indent> *)(?P<head>(?:pub(?:\(\w+\))? )?(?P<kind>impl|trait|struct|enum)\b(?:[^;{\[]|\[[^\]]*\])*)\{", re.M)
# What no rule has left: words of Rattle, `Drop` as a bound, a crate, a sign of antt.
LEFT = re.compile(r"\b(?:ghost|requires|ensures|Model|HostRuntime|unsafe|rt|Abort|AllocGlobal)\b"
                  r"|(?<!::)(?<![({,] )(?<!^ {4})\bDrop\b|\bwasmi_(?!core_proved)\w+::|[^\x00-\x7f]", re.M)
COMMENTS = re.compile(r"(?:^ *«[dc]\d+»\n)*\Z", re.M)
GHOST_ITEM = re.compile(r"((?:^ *«d\d+»\n)*)^ *(«g\d+»)\n(?: *\n)?", re.M)
TIDY = re.compile(r"(?:ghost )?(.*?)\{(.*)\}[;,]?\Z", re.S)
# The drops that are left out: they take the fields apart and drop them, as Rust's own drop does. tools/erased compares their order.
TAKES_APART = re.compile(r"(?:#\[inline\]\s*)?fn drop\(self\)\s*\{\s*let \w+ \{[\w:,\s]*\} = self;\s*(?:drop\(\w+\);\s*)+\}")
RUNTIME = r"rt: (?:[^,;(){}]|\([^()]*\))*|rt"
ALLOCATORS = r"alloc: (?:Global|Allocator)\b|alloc|self\.alloc|machine\.store\.alloc|self\.(?:items|bytes)\.allocator\(\)|rt\.alloc\(\)"
# The shim's traits and types, and what a text has that needs them.
NEEDED = {"ArrayExt": r"\.try_map_all\(", "SliceExt": r"\.try_to_vec\(", "StrExt": r"\.try_repeat\(", "TextExt": r"\.try_push_str\(|try_of\(",
          "TryClone": r"\.try_clone\(", "Vec": r"(?<![.\w])Vec\b"}
# A type of one letter in a contract; `{S = T}` names an argument of a definition.
LETTER = re.compile(r"(?<![\w.'{])([A-Z])(?![\w'])")
INNER = re.compile(r"(?:(?://![^\n]*|#!\[[^\n]*|\s*)\n)*")


def tidy(text):
    """A clause or ghost item without its braces."""
    head, inner = (it.strip() for it in TIDY.match(text).groups())
    inner = re.sub(r"\s*\n\s*", "\n    ", inner)
    return f"{head} {inner}" if head[-1] in ":=" else f"{head}: {inner}"


class File(Source):
    """A file of a crate, and the rules that make Rust of it."""

    def __init__(self, text, crate, known):
        super().__init__(text)
        self.crate, self.known, self.models = crate, known, {}
        self.is_program, self.is_test = crate in known.examples, crate in known.tests + known.examples
        # The package for C has no pages of definitions, to which a link could lead.
        self.links = known.specs.links([] if crate in known.of_c else self.all_of("u")) if not self.is_test else None
        of_proofs = [it.split("{", 1)[1] for it in self.all_of("u") if re.search(r"[pP]roofs.*\{", it, re.S)]
        self.proofs = set(re.findall(r"[\w']+", " ".join(of_proofs)))

    def rust(self):
        self.attributes()
        self.sub(r"^ *«u\d+»\n", "", re.M)
        self.functions()
        self.items()
        self.drop_bounds()
        self.calls()
        self.allocators()
        self.variants()
        self.laws()
        self.paths()
        self.check()
        text = re.sub(r"\[`(crate|wasmi_\w+)::([\w:]+)`\](?![:(])", self.link, self.whole())
        return self.imported(text)

    def imported(self, text):
        """The text with what it needs of the shim and of std, after its inner docs."""
        needed = [name for name, pattern in NEEDED.items() if re.search(pattern, self.text)]
        lines = [f"use crate::rattle::{{{', '.join(needed)}}};\n"] if needed else []
        lines += ["use std::io::Write as _;\n"] if "writeln!(std::io::stdout()" in text else []
        lines += ["use std::string::String;\n"] if not self.is_program and re.search(r"\bString\b", self.text) else []
        at = INNER.match(text).end()
        return text[:at] + "".join(lines) + text[at:]

    def link(self, found):
        path = f"{self.known.prefix_of(found[1], self.crate)}::{found[2]}"
        return f"[`{'::'.join(path.split('::')[-2:])}`]({path})"

    def check(self):
        """Stops at what no rule knows."""
        if left := [*self.all_of("q"), *self.all_of("g"), *self.all_of("u")]:
            raise Unknown(f"left: {left[0][:60]}")
        text = MARK.sub("", self.text)
        left = LEFT.search(text)
        macros = set(re.findall(r"(?<!\$)\b([a-z]\w*)!\s*[(\[{]", text)) - MACROS - self.known.macros
        macros -= MACROS_OF_TESTS if self.is_test else set()
        if left or macros:
            raise Unknown(f"left: {left[0] if left else macros}")

    # Items.

    def attributes(self):
        """Leaves out tactics and the derive of `Drop`."""
        while found := re.search(r"#!?\[tactic\b", self.text):
            end = closing(self.text, self.text.index("[", found.start()))
            self.text = self.text[:found.start()] + self.text[end:].lstrip()
        if unknown := set(re.findall(r"#!?\[(\w+)", self.text)) - ATTRIBUTES - (ATTRIBUTES_OF_TESTS if self.is_test else ATTRIBUTES_OF_C if self.crate in self.known.of_c else set()):
            raise Unknown(f"attributes {unknown}")

        def derive(found):
            names = [it for it in re.findall(r"\w+", found[1]) if it != "Drop"]
            if not DERIVES.issuperset(names):
                raise Unknown(found[0])
            return f"#[derive({', '.join(names)})]\n{found[2]}" if names else found[2]
        self.sub(r"#\[derive\(([^)]*)\)\]\n( *)", derive)

    def functions(self):
        """Shows the clauses of functions in their docs, and has public ones test what they require."""
        for found in reversed(list(FN.finditer(self.text))):
            end, is_public = body(self.text, found.end()), found["before"].startswith("pub ")
            head, opening, rest = self.text[found.end():end], self.text[end], self.text[end + 1:]
            clauses = [tidy(self.of(it)) for it in re.findall(r"«q\d+»", head)]
            if opening == ";":
                is_public = [it["head"] for it in ITEM.finditer(self.text, 0, found.start()) if it["kind"] == "trait"][-1].startswith("pub ")
            tests = [] if self.is_test else self.tests_of(found["name"], head, opening, clauses, is_public)
            asserts = "".join(f"\nassert!({test}, {self.mark('s', chr(34) + said + chr(34))});" for test, said in tests)
            panics = [f"Panics if {', or if '.join(said for _, said in tests)}."] if tests else []
            docs = self.docs("Errors", self.errors(found, head, clauses), found)
            docs += self.docs("Panics", panics, found, after=docs)
            docs += self.docs("Contract", clauses, found, after=docs)
            hint = "" if self.is_test or opening == ";" or re.search(r"\b(inline|cold)\b", found["attributes"]) else self.hint(head)
            head = re.sub(r"\s*«q\d+»", "", head).rstrip() + ("\n" if "where" in head else " ") + opening
            attributes = found["attributes"] + self.must_use(found, head, opening) + hint
            self.text = (self.text[:found.start()] + docs + attributes + found["indent"] + found["before"] + f"fn {found['name']}" + head + asserts + rest)

    def errors(self, found, head, clauses):
        """The errors that the forms of the clauses tell; in docs that say them already, each gets a link to its variant."""
        returned = None if self.is_test else re.search(r"-> Result<.*?(\w+(?:Error|Code|Calls))\b", head, re.S)
        variants = self.known.errors[returned[1]] if returned and returned[1] in PLACES_OF_ERRORS else ()

        def linked(name):
            return f"[`{name[1]}`]({PLACES_OF_ERRORS[returned[1]]}::{returned[1]}::{name[1]})" if name[1] in variants else name[0]
        said = COMMENTS.search(self.text[:found.start()])[0]
        marks = re.findall(r"«d(\d+)»", said)
        title = next((n for n, mark in enumerate(marks) if self.kept[int(mark)] == "/// # Errors"), len(marks))
        for mark in map(int, marks[title:]):
            self.kept[mark] = re.sub(r"`(\w+)`", linked, self.kept[mark])
        if variants and marks and (other := re.match(r"/// As `(\w+?)(?:_metered)?`, with", self.kept[int(marks[0])])):
            return [f"Those of `{other[1]}`."]
        forms = " ".join(" ".join(clauses).split())
        return [re.sub(r"`(\w+)`", linked, its) for form, its in ERRORS.items() if returned and re.search(form, forms)]

    def must_use(self, found, head, opening):
        """`#[must_use]` of a public function whose result is all that it does."""
        if self.is_test or opening == ";" or not found["before"].startswith("pub "):
            return ""
        taken, _, returned = re.split(r"\bwhere\b|«q", head)[0].rpartition("-> ")
        # An arrow of a closure among the parameters, which others follow, is none of the function.
        is_all = taken and "&mut" not in taken and ">(" not in returned and not re.match(r"Result<|fmt::Result|&(?:'\w+ )?mut\b", returned)
        return "#[must_use]\n" * bool(is_all)

    def hint(self, head):
        """A function without a hint gets one: rustc inlines few across crates, and Rattle all."""
        returned = re.search(r"-> (\w+(?:<[\w', <>]+>)?)\s*(?:«q\d+»\s*)*\Z", head)
        return "#[inline(always)]\n" if returned and returned[1] in INLINED_ALWAYS else "#[inline]\n"

    def tests_of(self, name, head, opening, clauses, is_public):
        """What a function tests of what it requires, and what its panics say: no proof covers the callers of a public one in Rust."""
        required = [re.sub(r"\s+", " ", it.removeprefix("requires").strip()) for it in clauses if it.startswith("requires")]
        # What the package for C exports requires nothing, and all other callers are proved.
        required = [] if self.crate in self.known.of_c else [it for it in required if it not in UNTESTED]
        if opening == ";":
            if required and is_public and name not in OF_TRAITS:
                raise Unknown(f"{name} of a trait requires {required[0]}")
            return []
        if is_public and (unknown := [it for it in required if it not in REQUIRES]):
            raise Unknown(f"{name} requires {unknown[0]}")
        tests = [REQUIRES[it] for it in required if is_public]
        if (of_trait := OF_TRAITS.get(name)) and (named := re.search(of_trait[0], head)):
            tests.append((of_trait[1].format(*named.groups()), of_trait[2]))
        return tests

    def docs(self, title, lines, found, after=""):
        """A section of an item's docs, with the links of a contract."""
        if not lines:
            return ""
        is_said = title not in ("Contract", "Model")
        made = ["", f"# {title}", "", *(lines if is_said else ["```text", *"\n".join(lines).split("\n"), "```"])]
        if not is_said and self.links:
            made += self.links.of("\n".join(lines)) + self.legend("\n".join(lines), found)
        has_docs = after or re.search(r"«d\d+»\n\Z", self.text[:found.start()])
        return "".join(f"{found['indent']}{self.mark('d', f'/// {line}'.rstrip())}\n" for line in made[not has_docs:])

    def legend(self, contract, found):
        """The lines below a contract that say what its types of one letter are, by their traits: the item has none of that name where
        another calls it."""
        heads = [it["head"] for it in ITEM.finditer(self.text, 0, found.start()) if closing(self.text, it.end() - 1) > found.start()]
        heads += [found["head"] if "head" in found.re.groupindex else self.text[found.end():body(self.text, found.end())]]
        bounds = {letter: bound for head in heads for letter, bound in re.findall(r"\b([A-Z])(?:: (?:\w+::)*(\w+))?(?=\W)", head) if bound}
        said = []
        for letter in sorted(set(LETTER.findall(contract))):
            bound = bounds.get(letter)
            said.append(f"`{letter}` is {LEGENDS.get(bound) or ('a type with the trait `' + bound + '`' if bound else 'any type')}.")
        return ["", " ".join(said)] if said else []

    def fields(self, head, inside):
        """The fields of a struct that contracts see and Rust hides."""
        if re.search(r"struct (\w+)|$", head)[1] not in HIDDEN_FIELDS:
            return []
        fields = re.findall(r"«d(\d+)»\n *pub (\w+):", inside)
        return ["Contracts name fields that are private here:", "", *(f"- `{name}`: {self.kept[int(mark)][4:]}" for mark, name in fields)]

    def items(self):
        """Shows ghost members in the docs of their items, and leaves out models and drops that Rust does itself."""
        for found in reversed(list(ITEM.finditer(self.text))):
            end = closing(self.text, found.end() - 1)
            head, inside = found["head"], self.text[found.end():end]
            ghosts = [(docs, self.of(mark)) for docs, mark in GHOST_ITEM.findall(inside)]
            inside = GHOST_ITEM.sub("", inside)
            if found["kind"] == "impl":
                if self.is_left_out(head, inside.rstrip("}").strip(), ghosts):
                    start = COMMENTS.search(self.text[:found.start()]).start()
                    self.text = self.text[:start] + self.text[end:].lstrip("\n")
                    continue
                ghosts = [(docs, text) for docs, text in ghosts if not self.is_test and not self.is_evidence(text)]
                if "Clone for" in head and "fn clone(&self) -> Result<" not in inside:
                    raise Unknown("a clone that can't fail")
                if "Clone for" in head:
                    head, inside = head.replace("Clone for", "crate::rattle::TryClone for"), inside.replace("fn clone(", "fn try_clone(")
            if found["kind"] == "trait" and re.search(r"<Self[,>]", inside):
                head = re.sub(r"(trait \w+)(:)?", lambda it: f"{it[1]}: Sized{' +' * bool(it[2])}", head, count=1)
            docs = self.docs("Contract", [line for docs, text in ghosts for line in [*self.said(docs), *tidy(text).split("\n")]], found)
            docs += self.docs("Fields in contracts", self.fields(head, inside), found)
            if found["kind"] in ("struct", "enum"):
                docs += self.docs("Model", self.models.pop(re.search(r"(?:struct|enum) (\w+)", head)[1], []), found)
            self.text = self.text[:found.start()] + docs + found["attributes"] + found["indent"] + head + "{" + inside + self.text[end:]
        if self.models:
            raise Unknown(f"models of {set(self.models)}")

    def is_left_out(self, head, rest, ghosts):
        """Whether an `impl` is a model, which is kept for the docs of its type, or a drop that Rust does itself."""
        found = re.search(r"\b(Model|Drop) for (\w+)", head)
        if found and found[1] == "Model":
            self.models[found[2]] = [line for _, text in ghosts for line in tidy(text).split("\n")]
        if found and not (TAKES_APART.fullmatch(rest) if found[1] == "Drop" else not rest):
            raise Unknown(f"{found[0]}: {rest[:200]}")
        return bool(found)

    def is_evidence(self, text):
        """Whether a ghost member of an `impl` is a proof, and no value."""
        return re.match(r"ghost\s+(\w+)", text)[1] in self.known.asked or not self.proofs.isdisjoint(re.findall(r"[\w']+", text))

    def said(self, docs):
        said = " ".join(self.of(it)[3:].strip() for it in re.findall(r"«d\d+»", docs))
        return [f"-- {said}"] if said else []

    def drop_bounds(self):
        """Leaves out each bound by `Drop`: Rust drops every value."""
        self.sub(r" \+ Drop\b|(?<=: )Drop \+ ", "")
        self.sub(r"(?<=\n) *[\w:]+: Drop,\n", "")
        self.sub(r": Drop(?=[>, {])", "")
        self.sub(r"\bwhere\s*\{", "{")

    # Calls.

    def calls(self):
        """What the shim has otherwise: above all, calls whose memory can be refused."""
        self.sub(r"\.clone\(\)\?" + (r"|\.clone\(\)" if self.is_test else ""), lambda it: it[0].replace("clone", "try_clone"))
        self.sub(r"\.try_map\(", ".try_map_all(")
        self.sub(r"\.to_vec\((?!\))", ".try_to_vec(")
        if self.is_test:
            for old, new in OF_TESTS.items():
                self.sub(old, new)
        while found := re.search(r"\b(vec|format)!([\[(])in [^;]*;\s*", self.text):
            end = closing(self.text, found.end(1) + 1)
            inner = self.text[found.end():end - 1]
            made = f"Vec::filled({inner.replace(';', ',', 1)})" if ";" in inner else f"Vec::of([{inner}])"
            if found[1] == "format":
                made = f"crate::rattle::text(format_args!({inner}))"
            self.text = self.text[:found.start()] + made + self.text[end:]
        self.sub(r"\bfn fmt<W: (?:fmt::)?Write>\(", "fn fmt(")
        self.sub(r"\bFormatter<W>", "Formatter<'_>")

    def allocators(self):
        """Leaves out allocators and the runtime: imports, parameters, fields and arguments."""
        self.sub(r"\b(use std::alloc::)(\{[^}]*\}|[^;]*)(;\n)", self.of_alloc)
        self.sub(r"^ *(?:use std::(?:process::Abort|marker::Model);|let alloc = rt\.alloc\(\);)\n", "", re.M)
        part = rf"(?:pub(?:\(crate\))? )?[&*$]*(?:{ALLOCATORS}{'|' + RUNTIME if self.is_test else ''})"
        argument = rf"([(\[{{,]\s*)(?:«[dc]\d+»\s*)*{part},\s*|([(\[,]\s*){part}(?=\s*[)\]])|(,\s*)alloc(?=\s*\}})"
        while self.sub(argument, r"\1\2\3"):
            pass
        self.sub(r"\$alloc:expr,\s*", "")

    def of_alloc(self, found):
        names = [it for it in re.split(r"[{},\s]+", found[2].replace("Global as ", "Global")) if it and not it.startswith(("Global", "AllocGlobal"))]
        return f"{found[1]}{{{', '.join(names)}}}{found[3]}" if names else ""

    # Docs of variants, laws, paths.

    def variants(self):
        """A variant of a row of instructions without docs has a link to its function."""
        def documented(found):
            function = self.known.rows.get(found[2])
            if not function:
                return found[0]
            return f"{found[1]}{self.mark('d', f'/// [`{function}`](crate::{module_of_instruction(function)}::{function})')}\n{found[0]}"
        if self.crate not in self.known.of_c:
            self.sub(r"(?<!»\n)^( +)([A-Z]\w*)(?:\([^)]*\))?,\n", documented, re.M)

    def laws(self):
        """Laws are there for the reference and for tests."""
        self.sub(r"^ *pub use \w+::laws as \w+;\n|\blaws as \w+,\s*|,\s*laws as \w+", "", re.M)
        if self.crate in self.known.of_c:
            self.sub(r"^ *(?:pub mod laws|use crate::laws|laws::\w+\(\));\n", "", re.M)
        self.sub(r"^(?=(?:pub )?mod laws;)", "#[cfg(any(doc, test))]\n", re.M)

    def paths(self):
        """Crates are modules, and what Rust's std lacks is the shim's."""
        self.sub(r"(?<![\w:.])(crate(?:::tests)?|wasmi_\w+)(?=::)(?!::rattle)", lambda it: self.known.prefix_of(it[1], self.crate))
        self.sub(r"(?<![\w:.])std(?=::(?:alloc|rc|simd|test)\b)|(?<![\w:.])(?=arrayvec\b)", lambda it: "crate::rattle" + "::" * (not it[0]))
        modules = re.findall(r"(?<![\w:.])std::(?:(\w+)|\{([^}]*)\})", self.text)
        used = {word for one, several in modules for word in [one, *re.findall(r"(?:\A|,)\s*(\w+)", several)] if word}
        if unknown := used - STD_KEPT:
            raise Unknown(f"std::{unknown}")
