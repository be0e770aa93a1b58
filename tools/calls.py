"""The calls of the machine: what tools/calls.toml says of each, and the definitions, lemmas and lines that are projections of it. The names and the types of what a
call is given are those of `Call` in crates/wasmi_machine/src/calls.rt. What is written stands between two comments that say so."""
import re
import tomllib

import errors
import numbering
import regions
from libraries import TOP
from prototypes import KINDS, capitals
from regions import definition, filled

CALLS = TOP / "crates/wasmi_machine/src/calls.rt"
ROWS = TOP / "tools/calls.toml"
BITS = {"usize": 64, "u64": 64, "u32": 32, "u8": 8}
# The keys of a row, which the head of tools/calls.toml explains.
NEEDED = {"subject", "word", "syntax", "reply"}
POSSIBLE = {"operand", "effect", "vector", "changes", "reads", "words", "parser", "form", "kind", "members", "above", "header", "refusals"}
# The effects of calls that aren't local: they reach the meter or the limiter, or make something.
NOT_LOCAL = re.compile(r"FuelSet|Told \(get_fuel_reply|\w*Made|\w+Grown|RangeWritten|Changed \(\w+Made")
CHARGED = re.compile(r"\w+Grown|RangeWritten")
# What a word writes besides numbers: the names of a type, and the enum of those names in the proofs.
NAMED = {"value_word": "value_type", "mutability_word": "mutability", "reference_word": "reference_type"}
SUBJECTS = {"value": "of the meter, of a global or of a register begins with", "memory": "of a memory begins with, or one that drops a memory or a table",
            "access": "begins with which loads or stores", "table": "of a table begins with, or one that empties a segment",
            "vector": "of a vector instruction begins with"}

# The functions of command.rt that read the commands of these words.
PARSERS = {parser: "values_call" if parser == "value" else f"{parser}_call" for parser in SUBJECTS}


def fields():
    """The names and the types of what each call is given."""
    body = re.sub(r"^    ///.*\n", "", CALLS.read_text().partition("pub enum Call {\n")[2].partition("\n}\n")[0] + "\n", flags=re.M)
    for name, single, several in re.findall(r"^    ([A-Z]\w*)(?:\((.*?)\)| \{\n(.*?)^    \})?,$", body, re.M | re.S):
        yield name, [(None, single)] if single else re.findall(r"^ +(\w+): (.*),$", several, re.M)


class Part:
    """What one or two words write of a field: the kind, the first word, the field with what is taken of it, and the conditions on the words."""

    def __init__(self, kind, word, term, conditions, type="ℕ", lookup=None):
        self.kind, self.word, self.term, self.conditions, self.type, self.lookup = kind, word, term, conditions, type, lookup


class Call:
    def __init__(self, name, given, row):
        self.name, self.row = name, row
        self.fields = [(field or row["operand"], type) for field, type in given]
        self.types = dict(self.fields)
        self.variables = [field for field, _ in self.fields]
        self.parts, self.list, self.count = [], None, 0
        self.words = row.get("words", " ".join(self.variables)).split()
        self.lane = self.words.index("LANE") if "LANE" in self.words else None
        for word in self.words:
            self.add(word)
        if lacks := {*self.types} - {part.term.split(".")[0] for part in self.parts} - {self.list and self.list[0]}:
            raise SystemExit(f"tools/calls.toml: no word of {name} writes {lacks}")
        # A call that makes a vector of what is in registers gives it to the register of its result.
        self.effect = row.get("effect") or f"Changed (RegisterSet dst (vector_given s.registers {self.pattern()}))"

    def add(self, word):
        """The parts of a word of the row: a field, a text, or the lane that a name takes."""
        at, (field, _, taken) = self.count, word.partition(".")
        made = [Part("lane", at, field, [])] if word == "LANE" else \
            [Part("text", at, field, [f"(word {at} ≡ codes \"{field[1:-1]}\")"])] if word[0] == "'" else self.parts_of(field, self.types[field], taken, at)
        self.parts += [it for it in made if it.kind != "lane"]
        self.count += 0 if self.list else sum({"reference": 2, "memory_type": 4, "table_type": 4}.get(it.kind, 1) for it in made)

    def parts_of(self, field, type, taken, at):
        number = lambda term, word, bits=64: Part("number", word, term, [f"WritesNumber {bits} (word {word}) {term}"])
        named = lambda term, word, names, type: Part("named", word, term, [f"(word {word} ≡ {names} {term})"], type, names)
        four = " ".join(f"(word {at + k})" for k in range(4))
        if type in BITS:
            return [number(field, at, BITS[type])]
        if type.endswith("Op"):
            return [self.instruction(field, type, at)]
        if type.startswith(("Vec<", "[")):
            self.list = (field, type)
            return []
        return {
            "RawVal": lambda: [Part("low", at, field, ["(lo : ℕ)", f"WritesNumber 64 (word {at}) lo", f"({field} ≡ raw_of lo)"], "RawVal")] if taken
            else [number(f"{field}.lo", at), number(f"{field}.hi", at + 1)],
            "TypedRawVal": lambda: [named(f"{field}.ty", at, "value_word", "ValType"), number(f"{field}.raw.lo", at + 1), number(f"{field}.raw.hi", at + 2)],
            "GlobalType": lambda: [named(f"{field}.content", at, "value_word", "ValType"), named(f"{field}.mutability", at + 1, "mutability_word", "Mutability")],
            "RefType": lambda: [named(field, at, "reference_word", "RefType")],
            "TypedRawRef": lambda: [Part("reference", at, field, [f"WritesReference (word {at}) (word {at + 1}) {field}"], "TypedRawRef")],
            "MemoryType": lambda: [Part("memory_type", at, field, [f"NamesType {four} {field}"], "MemoryTypeValue")],
            "TableType": lambda: [Part("table_type", at, field, [f"NamesTableType {four} {field}"], "TableTypeValue")],
        }[type]()

    def instruction(self, field, type, at):
        kind = capitals(type.removesuffix("Op")).lower()
        if self.lane is None:
            return Part("op", at, field, [f"IsName {kind}_name (word {at}) {field}"], type, kind)
        return Part("lane_op", at, field, [f"NamesLane {kind}_name {kind}_op (word {at}) (word {self.lane}) {field}"], type, kind)

    def pattern(self):
        return f"(call.{self.name} {' '.join(self.variables)})" if self.variables else f"call.{self.name}"

    def conditions(self):
        return [it for part in self.parts for it in part.conditions]

    def is_charged(self):
        return bool(CHARGED.match(self.effect))

    def is_local(self):
        return not NOT_LOCAL.match(self.effect)

    def has_form(self):
        return self.row.get("form", not self.list and all(part.kind != "text" for part in self.parts))

    def applied(self, value, listed=None):
        """The call of values: of each part by its place among the parts, and of the list at the end."""
        def given(field):
            its = {part.term.removeprefix(field).lstrip("."): value(k) for k, part in enumerate(self.parts) if part.term.split(".")[0] == field}
            if "" in its:
                return its[""]
            if "raw.lo" in its:
                its = {"ty": its["ty"], "raw": f"record {{ lo = {its['raw.lo']}; hi = {its['raw.hi']} }}"}
            return f"(record {{ {'; '.join(f'{name} = {it}' for name, it in its.items())} }})"
        its = [listed if self.list and field == self.list[0] else given(field) for field, _ in self.fields]
        return " ".join([f"call.{self.name}", *its])


def calls():
    rows = tomllib.loads(ROWS.read_text())
    given = dict(fields())
    if list(rows) != list(given):
        raise SystemExit(f"tools/calls.toml and Call differ: {set(rows) ^ set(given) or 'in their order'}")
    for name, row in rows.items():
        wrong = set(row) - NEEDED - POSSIBLE | NEEDED - set(row)
        wrong |= {"effect", "vector"} if ("effect" in row) == ("vector" in row) else set()
        wrong |= {"kind", "members"} if ("kind" in row) != ("members" in row) else set()
        wrong |= {"parser"} - set(PARSERS) if row.get("parser", "value") not in PARSERS else set()
        if wrong:
            raise SystemExit(f"tools/calls.toml: {name} has no such key, lacks it, or has another too: {', '.join(sorted(wrong))}")
    kinds = [row["kind"] for row in rows.values() if "kind" in row]
    if len(kinds) != len(set(kinds)):
        raise SystemExit(f"tools/calls.toml has a kind twice: {[kind for kind in kinds if kinds.count(kind) > 1]}")
    return [Call(name, given[name], row) for name, row in rows.items()]


def clauses(name, its, other=None):
    """A line for each call, but those with the other value, which have one together at the end."""
    lines = [filled(f"{name} {call.pattern()} = {value}") for call, value in its if value != other]
    return lines + ([filled(f"{name} call = {other}")] if other else [])


# ---- crates/wasmi_machine/specs/Steps.antt

def subjects(its):
    return definition("what each call is about", "subject_of", "Call → Subject", clauses("subject_of", [(it, it.row["subject"]) for it in its], "RegisterFile"))


def charged(its):
    comment = "the calls that are charged for what they write: growths, and those that write over a range of a memory or a table"
    return definition(comment, "is_charged", "Call → Bool", clauses("is_charged", [(it, str(it.is_charged()).lower()) for it in its], "false"))


def vectors(its):
    comment = "what a call that makes a vector of what is in registers gives the register of its result"
    lines = [(it, it.row.get("vector", "None")) for it in its]
    return definition(comment, "vector_given", "List RawVal → Call → Option (Result RawVal TrapCode)", clauses("vector_given rs", lines, "None"))


def makers(its):
    lines = [(it, "Unit {0}" if "vector" in it.row else "⊥") for it in its]
    return definition("a call makes a vector of what is in registers", "MakesVector", "Call → Type 0", clauses("MakesVector", lines, "⊥"))


def effects(its):
    return definition("the effect of a call on a machine in this state", "effect_of", "State → Call → Effect",
                      clauses("effect_of s", [(it, it.effect) for it in its]))


# ---- crates/wasmi_machine/specs/Exchange.antt

def places(its):
    def place(call):
        grown = re.match(r"\w+Grown (\w+) ", call.effect)
        return f"At {grown[1]}" if grown else "New" if re.match(r"\w+Made ", call.effect) else "Nowhere"
    comment = "where a call lets something grow: a creation at a new index, a growth at the index that it names, and another call nowhere"
    return definition(comment, "place_of", "Call → Place", clauses("place_of", [(it, place(it)) for it in its], "Nowhere"))


def prices(its):
    """What is paid for a write over a range, by how many elements or bytes it writes, the last of what the effect is given."""
    of_tables, of_memories = [], []
    for call in its:
        if written := re.match(r"RangeWritten \((\w+)Written .* (\w+)\)$", call.effect):
            paid = f"Some {written[2]}" if "OfSegment" not in call.effect else f"if nat_eq {written[2]} 0 then None else Some {written[2]}"
            (of_tables if written[1] == "Table" else of_memories).append((call, paid if written[1] == "Table" else f"Some (item_price 1 {written[2]})"))
    comment = "how many elements a call pays for that writes over a range of a table: an initialization by no item pays for none"
    first = definition(comment, "elements_paid", "Call → Option ℕ", clauses("elements_paid", of_tables, "None"))
    lines = clauses("writing_price", of_memories, "option_map table.element_price (elements_paid call)")
    return first + "\n" + definition("the price of what a call writes over a range, if it has one", "writing_price", "Call → Option (CustomFuelCosts → ℕ)", lines)


# ---- crates/wasmi_laws/specs/Places.antt

def changed(its):
    comment = "the one index at which a call may change what is there; a call that makes something, or that only reads, changes what is at none"
    lines = [(it, f"Some ({it.row['changes']})" if "changes" in it.row else "None") for it in its]
    return definition(comment, "changed_location", "Call → Option Location", clauses("changed_location", lines, "None"))


def dropped(its):
    def place(call):
        found = re.match(r"Changed \((Memory|Table)Dropped (\w+)\)$", call.effect)
        return f"Some ({found[1]}At {found[2]})" if found else "None"
    comment = "the index at which a call drops a memory or a table"
    return definition(comment, "dropped_location", "Call → Option Location", clauses("dropped_location", [(it, place(it)) for it in its], "None"))


def read(its):
    lines = [(it, "".join(f"{place} ∷ " for place in it.row.get("reads", ())) + "[]") for it in its]
    return definition("the other indices of which a call reads what is there", "read_locations", "Call → List Location", clauses("read_locations", lines, "[]"))


def local(its):
    comment = "a call acts on what is at indices alone: it makes nothing, is never charged, and reaches neither the meter nor the limiter"
    return definition(comment, "IsLocal", "Call → Type 0", clauses("IsLocal", [(it, "Unit {0}" if it.is_local() else "⊥") for it in its], "Unit {0}"))


# ---- crates/wasmi_grammar/specs/Commands.antt

def command_words(its):
    return definition("the word that a command begins with", "command_word", "Call → List ℕ",
                      clauses("command_word", [(it, f'codes "{it.row["word"]}"') for it in its]))


def operands(its):
    def line(call):
        least = f"({call.count} ≤ count)" if call.list else f"(count ≡ {call.count})"
        return " × ".join([least, *call.conditions()]) if call.parts else "Unit {0}" if call.list else f"count ≡ {call.count}"
    comment = "as many operands, the k-th of which is the text `word k`, write what the call is given, but for a list at their end"
    return definition(comment, "OperandsWrite", "ℕ → (ℕ → List ℕ) → Call → Type 0", clauses("OperandsWrite count word", [(it, line(it)) for it in its]))


def word_lists(its):
    made = []
    for parser, what in SUBJECTS.items():
        words = dict.fromkeys(it.row["word"] for it in its if it.row.get("parser") == parser)
        name = f"Is{parser.capitalize()}Word"
        line = f"{name} name = " + " ⊎ ".join(f'(name ≡ codes "{word}")' for word in words)
        a = "a word that a command"
        made.append(definition(f"{a} {what}", name, "List ℕ → Type 0", [filled(line)]))
    return "\n".join(made)


# ---- crates/wasmi_grammar/src/command.rt, and the answers of its functions

# The functions that read as many operands.
COUNTS = {2: "two", 3: "three", 4: "four", 5: "five"}


def of_parser(its, parser):
    return [it for it in its if it.row.get("parser") == parser]


def reads_each(call):
    """Whether each operand is one word that writes a field, so that a function of `operand` reads all."""
    return "words" not in call.row and not call.list and len(call.parts) in COUNTS and all(it.kind in ("number", "op") and "." not in it.term for it in call.parts)


def dispatch(its):
    """The arms of `command`, as rustfmt sets them."""
    made = ""
    for parser in SUBJECTS:
        words = list(dict.fromkeys(f'"{it.row["word"]}"' for it in of_parser(its, parser)))
        line, value, several = f"        {' | '.join(words)}", f"{PARSERS[parser]}(name, operands)", "\n        | ".join(words)
        made += f"{line} => {value},\n" if len(f"{line} => {value},") <= 100 else \
            f"{line} => {{\n            {value}\n        }}\n" if len(f"{line} => {{") <= 100 else f"        {several} => {value},\n"
    return made


def read_arms(parser):
    """The arms of the function of a kind for the calls whose operands are read by one function of `operand`."""
    def made(its):
        return "".join(f'        "{it.row["word"]}" => call!(operands, {COUNTS[len(it.parts)]} => {it.name} {{ {", ".join(it.variables)} }}),\n'
                       for it in of_parser(its, parser) if reads_each(it))
    return made


def answers(parser):
    """The answers for these arms: a command is refused since its operands are, and else is the call that they write."""
    def made(its):
        text = []
        for call in (it for it in of_parser(its, parser) if reads_each(it)):
            word, first = call.row["word"], call.variables[0]
            for goal, answer in ((f"returns-in_err-{first}-in-{word}", f"refused_named _ (search rules) c.in-{word}.is c.in_err-{first}-in-{word}.ensures"),
                                 (f"returns-in_ok-{first}-in-{word}", f"(sym c.in-{word}.is, c.in_ok-{first}-in-{word}.ensures)")):
                text.append(f"pub {goal} : goal.{goal}\n{goal} c = record {{ call = {answer} }}\n")
        return "\n".join(text)
    return made


# ---- crates/wasmi_grammar/proofs/CommandsLemmas.antt

def form_type(call):
    return " × ".join(part.type for part in call.parts) or "⊤"


def form_entry(call):
    kinds = [part.kind for part in call.parts]
    if "reference" in kinds and "table_type" not in kinds:
        return {3: "element_form", 4: "elements_form"}[len(kinds)]
    several = len(kinds) > 1
    type = f"({form_type(call)})" if several else form_type(call)
    return f"made {type} (λ a. {call.applied(lambda k: f'a.{k}' if several else 'a')})"


def form_value(call):
    """The values of a form, and what the words say of them."""
    kinds = [part.kind for part in call.parts]
    if "reference" not in kinds or "table_type" in kinds:
        terms, proof = [part.term for part in call.parts], "w"
    else:
        terms = [it for part in call.parts for it in ([f"{part.term}.ty", f"{part.term}.raw"] if part.kind == "reference" else [part.term])]
        proof = "(" + ", ".join(["w.0", *(it for k, kind in enumerate(kinds, 1) for it in ([f"w.{k}.0", f"w.{k}.1"] if kind == "reference" else [f"w.{k}"]))]) + ")"
    return "tt" if not terms else terms[0] if len(terms) == 1 else f"({', '.join(terms)})", proof


def equation(head, value, proof):
    line = f"{head} = ({value}, {proof})\n"
    return line if len(line) <= 121 else f"{head} = (\n  {value},\n  {proof},\n)\n"


def listed(entries, indent):
    """A list of pairs, as `rt fmt` sets it: a pair that is longer than a line stands in several, and its bracket ends the line before."""
    pad, made = " " * indent, "="
    for name, value in entries:
        line = f"{pad}({name}, {value}) ∷"
        made += f"\n{line}" if len(line) <= 120 else f" (\n{pad}  {name},\n{filled(f'{value},', indent + 2)}{pad}) ∷"
    return f"{made}\n{pad}[]\n"


def forms(its):
    entries = [(f'codes "{it.row["word"]}"', form_entry(it)) for it in its if it.has_form()]
    return definition("the forms of commands whose operands are read at once", "forms", "List (List ℕ × Form)", ["forms ", listed(entries, 4)], "abbrev ")


def form_lemma(its):
    type = "(words : LineWords) (call : Call) → WritesOperands words call → (a : (form_in forms (command_word call)).0) × (form_in forms (command_word call)).1 words a"
    lines = [equation(f"form words {it.pattern()} w", *form_value(it)) for it in its if it.has_form()]
    return definition("a call whose operands are written is of the form of its word", "form", type, [*lines, "form words call w = (call, w)\n"], "")


# ---- crates/wasmi_grammar/proofs/MeaningLemmas.antt

MEANINGS = {"Write": "WriteMeaning", "NewSegment": "SegmentMeaning", "NewData": "DataMeaning"}


def meaning(call, value, listed):
    said = call.applied(value, listed=listed)
    return MEANINGS[call.name] + said.removeprefix(f"call.{call.name}") if call.name in MEANINGS else f"Other ({said})" if call.fields else f"Other {said}"


def bound(part):
    """The name by which what a part looks up is bound."""
    return part.term.split(".")[-1]


def looked_up(part, form):
    """What a part that isn't a number looks up in words; form is `named`, or `is` of the equation that a call's words give."""
    four, two = (" ".join(f"(word {part.word + k})" for k in range(n)) for n in (4, 2))
    return {"reference": f"reference_{form} {two}", "memory_type": f"memory_{form} {four}", "table_type": f"table_{form} {four}"}.get(part.kind)


def named_lookup(call, part):
    if part.kind == "named":
        return f"named {NAMED[part.lookup]}.enum tt {part.lookup} (word {part.word})"
    if part.kind == "op":
        return f"named {part.lookup}.enum tt {part.lookup}_name (word {part.word})"
    if part.kind == "lane_op":
        return f"lane_named {part.lookup}.enum tt {part.lookup}_name {part.lookup}_op (word {part.word}) (word {call.lane})"
    return looked_up(part, "named")


def equal_lookup(call, part, proof):
    """The equation of a look-up, by what a call's words say."""
    if part.kind == "named":
        return f"named_is {NAMED[part.lookup]}.enum tt {part.lookup} refl (word {part.word}) {part.term} {proof}"
    if part.kind == "op":
        return f"named_is {part.lookup}.enum tt {part.lookup}_name refl (word {part.word}) {part.term} {proof}"
    if part.kind == "lane_op":
        return f"lane_is {part.lookup}.enum tt {part.lookup}_name {part.lookup}_op (word {part.word}) (word {call.lane}) refl {part.term} {proof}"
    return f"{looked_up(part, 'is')} {part.term} {proof}"


def searched_in(call):
    """The parts that aren't numbers, but looked up by their words."""
    return [part for part in call.parts if part.kind not in ("number", "low", "text")]


def nested(said, lookups):
    """What is said of names, under the look-up of each, the last of which is the innermost."""
    for k, (name, lookup) in enumerate(reversed(lookups)):
        said = f"{'option_and_then' if k else 'option_map'} (λ {name}. {said}) ({lookup})"
    return said if lookups else f"Some ({said})"


def named_value(call):
    def value(k):
        part = call.parts[k]
        if part.kind == "number":
            return f"n {part.word}" if "." in part.term else f"(n {part.word})"
        return f"(raw_of (n {part.word}))" if part.kind == "low" else bound(part)
    if any(part.kind == "text" for part in call.parts):
        return "beside drops_named (word 0)"
    words = f"(drop {call.count} words)" if call.count else "words"
    lookups = [(bound(part), named_lookup(call, part)) for part in searched_in(call)]
    if len(lookups) == 1 and call.name not in MEANINGS:
        return f"made ({lookups[0][1]}) (λ {lookups[0][0]}. {call.applied(value)})"
    return nested(meaning(call, value, f"(numbers_in {words})"), lookups)


def proofs(call):
    """Of each part the place of its first condition."""
    at, root = 1, "w.0" if call.list else "w"
    for part in call.parts:
        yield root, at
        at += len(part.conditions)


def equal_value(call):
    """What a call says, by the equations that its words give: of what is looked up and of the list, and of the numbers."""
    looked, numbers = [], []
    for part, (root, at) in zip(call.parts, proofs(call)):
        if part.kind == "text":
            looked.append(f"{root}.{at}")
        elif part in searched_in(call):
            looked.append(equal_lookup(call, part, f"{root}.{at}"))
        else:
            numbers += [f"← {root}.{at}.1"] if part.kind == "number" else [f"← {root}.{at + 1}.1", f"← {root}.{at + 2}"]
    if call.list:
        (field, type), it = call.list, "w.1" if call.parts else "w"
        words = f"(drop {call.count} words)" if call.count else "words"
        looked.append(f"numbers_is 5 {words} {field} {it}.written" if type.startswith("[") else
                      f"numbers_is {8 if type == 'Vec<u8>' else 32} {words} {field}.items {it}")
    return looked, numbers


def meaning_line(call):
    """The line of a call: by one list of equations, or by several where one doesn't fit."""
    head, (looked, numbers) = f"  call_is {call.pattern()} w =", equal_value(call)
    line = f"{head} rw ({', '.join(looked + numbers)})" if looked or numbers else f"{head} refl"
    if len(line) <= 120:
        return f"{line}\n"
    parts = [f"rw ({it})" for it in looked] + [f"rw ({', '.join(numbers)})"] * bool(numbers)
    whole, closed = " (".join(parts), ")" * (len(parts) - 1)
    return f"{head}\n" + "".join(f"      {it}\n" for it in ([f"{whole}{closed}"] if len(whole + closed) <= 114 else f"{whole}{closed}".replace(" (rw", "\n(rw").split("\n")))


def meanings(its):
    entries = dict.fromkeys((f'codes "{it.row["word"]}"', named_value(it)) for it in its)
    return definition("the call that operands write, by the word before them", "calls_named", "List (List ℕ × Option CallMeaning)",
                      ["  calls_named ", listed(entries, 6)], "abbrev ", 2)


def meaning_lemma(its):
    type = "(call : Call) → WritesOperands words call → beside calls_named (command_word call) ≡ Some (call_meaning call)"
    lines = [meaning_line(it) for it in its]
    return definition("operands that write a call give what the call says, beside its word", "call_is", type, ["  unfolding IsName\n", *lines], "", 2)


# ---- crates/wasmi_c: the call that the members of a struct stand for

# Of a member that isn't taken as it is: what the code takes of `self`, what the specification looks up and binds, and what it makes of that.
TAKEN = {
    "byte": ("self.byte()", None, "(byte_of numbers)"),
    "reference": ("self.typed_reference()?", "typed_reference_of numbers", None),
    "memory_type": ("self.memory_type()?", "memory_type_in numbers", None),
    "table_type": ("self.table_type()?", "table_type_in numbers", None),
    "global_type": ("GlobalType::new(val_type(self.ty)?, self.mutability())", "val_type_of numbers.ty",
                    "(record { content = ty; mutability = mutability_of numbers })"),
    "typed_value": ("TypedRawVal::new(val_type(self.ty)?, self.value)", "val_type_of numbers.ty", "(record { ty = value; raw = numbers.value })"),
    "lane_load": ("lane_load(self.op, self.lane).ok()?", "result_ok (lane_load_of numbers.op numbers.lane)", None),
    "lane_store": ("lane_store(self.op, self.lane).ok()?", "result_ok (lane_store_of numbers.op numbers.lane)", None),
    "extraction": ("extraction(self.op, self.lane).ok()?", "result_ok (extraction_of numbers.op numbers.lane)", None),
    "replacement": ("replacement(self.op, self.lane).ok()?", "result_ok (replacement_of numbers.op numbers.lane)", None),
    "ternary": ("ternary_numbered(self.op)?", "op_numbered TERNARIES numbers.op", None),
    "lanes": ("lanes_of(self.lanes)?", "lanes_of numbers.lanes", None),
}
# The functions of call_struct.rt that pass a kind on, from the last: of each the kinds, those first that stand for several calls, by the function of each.
DECODED = [
    ("value_call", range(18, 29), {23: "unary_call"}, "the call on a global or registers, if the kind is of one and the operands are ones that there are"),
    ("table_call", range(9, 18), {}, "the call on a table or an element segment, else on a global or registers"),
    ("range_call", range(29, 65536), {}, "the call that writes over a range of a memory or drops a data segment, else one of those above"),
    ("call_of", range(9), {5: "load_call", 6: "store_call", 24: "binary_call"}, "the call that numbers stand for, if there is one"),
]


def taken(member):
    """What the code takes of a member, what the specification looks up, and what it makes of what it has bound."""
    name, _, width = member.partition(":")
    if width not in ("", "u32"):
        raise SystemExit(f"tools/calls.toml: {member} is no member")
    return (f"to_u32(self.{name})?", f"u32_of numbers.{name}", None) if width else TAKEN.get(name, (f"self.{name}", None, f"numbers.{name}"))


def decoded(call):
    """The call of a struct's members in the specification."""
    its = [(field, *taken(member)[1:]) for (field, _), member in zip(call.fields, call.row["members"].split(), strict=True)]
    said = " ".join([f"call.{call.name}", *(value or field for field, _, value in its)])
    return nested(said, [(field, lookup) for field, lookup, _ in its if lookup]) if its else f"Some {said}"


def kinds_of(its, kinds):
    return sorted((it for it in its if it.row.get("kind") in kinds), key=lambda it: it.row["kind"])


def branch(condition, value):
    """A branch in one line, or in several from `then` on."""
    line = f"{condition} then {value}\n"
    return line if len(line) <= 121 else f"{condition}\n" + filled(f"then {value}", 4, 0)


def decoding(its):
    """The definitions of CallStructs.antt, each of which goes on with the one before it."""
    made, rest = [], "None"
    for name, kinds, several, comment in DECODED:
        rows = [*((kind, f"{function} numbers") for kind, function in several.items()), *((it.row["kind"], decoded(it)) for it in kinds_of(its, kinds))]
        lines = [branch(f"{'    else' if k else f'{name} numbers ='} if nat_eq numbers.kind {kind}", value) for k, (kind, value) in enumerate(rows)]
        made.append(definition(comment, name, "CallStruct → Option Call", [*lines, f"    else {rest}\n"], "unfoldable pub "))
        rest = f"{name} numbers"
    return "\n".join(made)


def arms(name):
    """The arms of a function of call_struct.rt."""
    def made(its):
        text = ""
        for call in kinds_of(its, next(kinds for function, kinds, *_ in DECODED if function == name)):
            values = [taken(member)[0] for member in call.row["members"].split()]
            head = f"            {call.row['kind']} => Call::{call.name}"
            if "operand" in call.row or not values:
                text += f"{head}({values[0]}),\n" if values else f"{head},\n"
            else:
                text += f"{head} {{\n" + "".join(f"                {field}: {value},\n" for (field, _), value in zip(call.fields, values)) + "            },\n"
        return text
    return made


# ---- include/wasmi_machine.h

# Of a member of calls.toml the members of `wasmi_call` that are read for it.
READ = {
    "byte": "value", "reference": "type reference", "memory_type": "count maximum page_size_log2 is_64", "table_type": "count maximum is_64 type",
    "global_type": "type is_mutable", "typed_value": "type value", "lane_load": "op lane", "lane_store": "op lane", "extraction": "op lane",
    "replacement": "op lane", "ternary": "op",
}


def constant(call):
    """The name of a kind of calls in the headers."""
    return f"WASMI_CALL_{KINDS.get(call.name, capitals(call.name))}"


def kinds(its):
    """The kinds of which the rows have what the header says."""
    rows = sorted((it for it in its if "header" in it.row), key=lambda it: it.row["kind"])
    lines = [f"    {constant(it)} = {it.row['kind']}{',' if it is not rows[-1] else ''}" for it in rows]
    width = max(map(len, lines)) + 1
    above = lambda it: filled(f"/* {it.row['above']} */", 4, 0) if "above" in it.row else ""
    return "".join(f"{above(it)}{line:{width}}/* {it.row['header']} */\n" for it, line in zip(rows, lines))


def unnamed(header):
    """The members that a kind of call reads and that the comment of the header doesn't name: the one behind the kind, or else above it."""
    above, said = "", {}
    # A list of members ends at the reply, at the refusals or at a colon. Above a kind it stands after the first colon.
    for comment, number, behind in re.findall(r"^    (/\*.*?\*/)$|^    WASMI_CALL_\w+ = (\d+),?(?: *(/\*.*?\*/))?$", header, re.M | re.S):
        above = comment.partition(": ")[2] if comment else above
        said[number] = re.split(r"->|;|:", behind or above)[0]
    for call in (it for it in calls() if "kind" in it.row):
        members = " ".join(READ.get(it.partition(":")[0], it.partition(":")[0]) for it in call.row["members"].split())
        lacks = [it for it in members.split() if not re.search(rf"\b{it}\b", said.get(str(call.row["kind"]), ""))]
        if lacks:
            yield f"include/wasmi_machine.h: the comment of call {call.row['kind']}, {call.name}, doesn't name {', '.join(lacks)}, which it reads"


# ---- rust/tests/scripts/bad_lines.rs

# Of what isn't a number alone: words that write one, and how many bits the number of each has, or `-`.
WRITTEN = {"reference": ("func 0", "- 32"), "memory_type": ("0 none 16 32", "64 - - -"), "table_type": ("func 0 none 32", "- 64 - -")}


def example(part, type):
    """Words that write a part, and their bits."""
    if part.kind in ("number", "low"):
        return "0", re.search(r"WritesNumber (\d+)", " ".join(part.conditions))[1]
    if part.kind in ("op", "lane_op"):
        names = next(rows for enum, rows in numbering.lists().values() if enum in (type, type.replace("Op", "Kind")))
        return names[0][1], "-"
    first = {"value_word": "i32", "mutability_word": "var", "reference_word": "func"}
    return WRITTEN.get(part.kind) or (first[part.lookup] if part.kind == "named" else part.term.strip("'"), "-")


def lines(its):
    """A line of each command, without the numbers that may follow, with the bits of its words."""
    made = ""
    for call in its:
        words = [(part.word, *example(part, call.types.get(part.term, ""))) for part in call.parts]
        words += [(call.lane, "0", "8")] if call.lane is not None else []
        line, bits = (" ".join(it[k] for it in sorted(words)) for k in (1, 2))
        if call.list and call.list[1].startswith("["):
            count = int(re.search(r"; (\d+)\]", call.list[1])[1])
            line, bits = line + " 0" * count, bits + " 5" * count
        bits += " .." if call.list and call.list[1].startswith("Vec") else ""
        command = " ".join([call.row["word"], *line.split()])
        row = f'    ("{command}", "{bits.strip()}"),'
        made += row + "\n" if len(row) - len("    (),") <= 60 else "    (\n" + "".join(f"        {it},\n" for it in re.findall(r'"[^"]*"', row)) + "    ),\n"
    return f"static COMMANDS: [(&str, &str); {len(its)}] = [\n{made}];\n"


# ---- conformance/hostile/calls.h

# Of a member of calls.toml what a line has, between quotes, and the arguments of that. A kind with another member has its line by hand.
LINES = {
    **{member: (" %zu", f"c->{member}") for member in ("index", "source")},
    **{member: ('" U "', f"c->{member}") for member in ("count", "ptr", "offset", "to", "from")},
    **{member: (" %d", f"c->{member}") for member in ("dst", "a", "b", "c")},
    "byte": (" %d", "(int)(c->value.lo & 255)"),
    "value": ('" U U "', "c->value.lo, c->value.hi"),
    "reference": (' %s %" PRIu32 "', "reference_word(c->type), c->reference"),
    "global_type": (" %s %s", 'type_word(c->type), c->is_mutable ? "var" : "const"'),
    "typed_value": (' %s" U U "', "type_word(c->type), c->value.lo, c->value.hi"),
    "lane_load": (" %s", "NAME_OF(LANE_LOADS, c->op)"),
    "lane_store": (" %s", "NAME_OF(LANE_STORES, c->op)"),
    "extraction": (" %s", "NAME_OF(EXTRACTIONS, c->op)"),
    "replacement": (" %s", "NAME_OF(REPLACEMENTS, c->op)"),
    "ternary": (" %s", "NAME_OF(TERNARIES, c->op)"),
    "LANE": (" %d", "c->lane"),
}


def kind_count(its):
    """How many kinds of calls C has."""
    kinds = {it.row["kind"] for it in its if "kind" in it.row} | {kind for _, _, several, _ in DECODED for kind in several}
    if kinds != set(range(len(kinds))):
        raise SystemExit(f"tools/calls.toml: the kinds of calls aren't numbered in turn: {sorted(kinds)}")
    return len(kinds)


def put(call, members):
    """What writes the line of a call, of whose fields these are the members."""
    parts = [(f" {word[1:-1]}", "") if word[0] == "'" else LINES[members.get(word, word)] for word in call.words]
    format = f'"{call.row["word"]}{"".join(said for said, _ in parts)}"'.replace(' ""', "")
    return ", ".join([f"return put(at, {format}", *(given for _, given in parts if given)]) + ");"


def line_cases(its):
    """A case for each kind whose line isn't written by hand."""
    for call in sorted((it for it in its if "kind" in it.row), key=lambda it: it.row["kind"]):
        members = dict(zip(call.variables, (it.partition(":")[0] for it in call.row["members"].split()), strict=True))
        if LINES.keys() >= set(members.values()):
            case = f"        case {constant(call)}:"
            line = f"{case} {put(call, members)}\n"
            yield line if len(line) <= 121 else case + "\n" + regions.textwrap.fill(put(call, members), 120, initial_indent=" " * 12, subsequent_indent=" " * 23) + "\n"


# What the numbers of a list are, among those of their shape.
NUMBERED = {"SCALAR_UNARIES": "scalar_unary", "MAKES": "make", "TESTS": "test", "SCALAR_BINARIES": "scalar_binary", "SHIFTS": "shift", "VECTOR_LOADS": "vector_load",
            "V128_STORE": "vector_store"}


def number_tests(_):
    """Whether a number is one of a list, for those lists that a call tells apart."""
    ranges, made = numbering.lists_by_number(), ""
    for name, word in NUMBERED.items():
        tests = " || ".join(f"op == {first}" if after == first + 1 else f"op < {after}" if first == 0 else f"(op >= {first} && op < {after})" for first, after in ranges[name])
        made += f"static inline int is_{word}(uint16_t op) {{ return {tests.removeprefix('(').removesuffix(')') if len(ranges[name]) == 1 else tests}; }}\n"
    return f"/* Which instruction a number of a shape is. */\n{made}"


def script_lines(its):
    return f"""/* How many kinds of calls there are: the numbers from this one on stand for none. */
enum {{ KINDS = {kind_count(its)} }};

/* The line of a call, without its end. */
static inline char *line_of(char *at, const wasmi_call *c) {{
    switch (c->kind) {{
{"".join(line_cases(its))}        default: return line_by_hand(at, c);
    }}
}}
"""


# ---- docs/SCRIPT.md

def table_of(call):
    """The table of the document that has the command of a call."""
    if call.row["subject"] in ("RegisterFile", "VectorAccesses"):
        return "registers"
    effect = call.effect
    return "memories" if call.row["subject"] == "Memories" or "(Data" in effect else \
        "tables" if call.row["subject"] == "Tables" or "(Segment" in effect or "(Items" in effect else "values"


def commands(table):
    """The rows of a table: commands with the same reply and the same refusals share one."""
    rows = {}
    for call in (it for it in calls() if table_of(it) == table):
        rows.setdefault((call.row["reply"], call.row.get("refusals", "")), []).extend(f"`{it}`" for it in call.row["syntax"])
    lines = (f"| {', '.join(its)} | {reply} | {refusals} |\n" for (reply, refusals), its in rows.items())
    return "| Command | Reply | Refusals, in their order |\n|---|---|---|\n" + "".join(lines)


# Of each file what stands between each two comments in turn.
FILES = {
    "crates/wasmi_machine/specs/Steps.antt": [(subjects, charged), (vectors, makers, effects)],
    "crates/wasmi_machine/specs/Exchange.antt": [(places,), (prices,)],
    "crates/wasmi_laws/specs/Places.antt": [(changed, dropped, read, local)],
    "crates/wasmi_grammar/specs/Commands.antt": [(command_words, operands), (word_lists,)],
    "crates/wasmi_grammar/src/command.rt": [(dispatch,), *((read_arms(parser),) for parser in ("memory", "access", "table", "vector"))],
    **{f"crates/wasmi_grammar/proofs/command/{PARSERS[parser]}/Answers.antt": [(answers(parser),)] for parser in ("memory", "access", "table", "vector")},
    "crates/wasmi_grammar/proofs/CommandsLemmas.antt": [(forms, form_lemma)],
    "crates/wasmi_grammar/proofs/MeaningLemmas.antt": [(meanings, meaning_lemma)],
    "crates/wasmi_c/specs/Machine/CallStructs.antt": [(decoding,)],
    "rust/tests/scripts/bad_lines.rs": [(lines,)],
    "include/wasmi_machine.h": [(kinds,), (lambda its: errors.enumerators(errors.errors()),)],
    "crates/wasmi_c/src/machine/call_struct.rt": [(arms("call_of"),), (arms("range_call"),), (arms("table_call"),), (arms("value_call"),)],
    "conformance/hostile/calls.h": [(number_tests,), (script_lines, lambda its: errors.texts_in_c(errors.errors()))],
}


def texts():
    """The files as they are to be."""
    return regions.texts(FILES, calls())
