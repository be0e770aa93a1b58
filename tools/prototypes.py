"""The calls, the structs and the numbers of the headers of include/, and those of the crates that have their functions, as C writes them."""
import re

CRATE_TYPES = {
    "bool": "bool", "i32": "int32_t", "i64": "int64_t", "u8": "uint8_t", "u16": "uint16_t", "u32": "uint32_t", "u64": "uint64_t", "usize": "size_t",
    "RawVal": "wasmi_words", "InstructionResult": "wasmi_result",
    "Handle": "wasmi_machine", "PoolHandle": "wasmi_pool", "Limits": "wasmi_limits", "CallStruct": "wasmi_call", "ReplyStruct": "wasmi_reply", "Room": "wasmi_room", "Totals": "wasmi_totals",
    "MemoryNumbers": "wasmi_memory", "TableNumbers": "wasmi_table", "MeterNumbers": "wasmi_meter", "QuotaNumbers": "wasmi_quota",
    "HostAnswers": "wasmi_answers", "Question": "wasmi_question", "Range": "wasmi_range",
}
# Parameters and fields that C calls by another name: (name in the crate, type in C without const) -> name in C.
OTHER_NAMES = {
    ("handle", "wasmi_machine *"): "machine",
    ("handle", "wasmi_pool *"): "pool",
    ("region", "uint32_t *"): "elements",
    ("source_region", "uint32_t *"): "source_elements",
    ("ty", "uint8_t"): "type",
}
# Kinds of calls that C calls by another name than their variant of `Call`.
KINDS = {"Extract": "EXTRACT_LANE", "Replace": "REPLACE_LANE"}
# Lengths that aren't named after their array.
LENGTHS = {"source_elements": "source_len", "source_region": "source_len"}
OPAQUE = ("wasmi_machine", "wasmi_pool", "wasmi_words")     # C reads no field of a handle, and the words are in another crate


class Unread(Exception):
    """Something that is written in another way than this file knows."""


def type_in_c(word):
    if word not in CRATE_TYPES:
        raise Unread(f"the type {word}")
    return CRATE_TYPES[word]


# ---- calls

def spaced(text):
    """A declaration with one space between words, and stars beside the name."""
    return re.sub(r"\* ", "*", re.sub(r" ?\* ?", " *", " ".join(text.split())))


def without_comments(text):
    return re.sub(r"/\*.*?\*/", "", text, flags=re.S)


PROTOTYPE = re.compile(r"^(\w[\w ]*?) (wasmi_\w+)\(([^)]*)\)(\s+WASMI_[A-Z_]+(?:\([\w\", ]+\))?)*;", re.M)
DEPRECATED = {"wasmi_table_copy": "wasmi_table_copy_within"}    # former names of calls


def listed(parameters):
    """The parameters of a prototype, which are none where C writes `void`."""
    return [] if parameters.strip() == "void" else list(map(spaced, parameters.split(",")))


def prototypes(header):
    """The calls of a header: by name, what they return and their parameters."""
    found = PROTOTYPE.findall(without_comments(header))
    return {name: [given, *listed(parameters)] for given, name, parameters, _ in found}


def attributes(given, parameters):
    """What a compiler is told of a call: that its status has to be looked at, and which parameters must not be NULL. That is each pointer after which
    no length stands, since an array of length 0 may be NULL."""
    following = [*parameters[1:], ""]
    pointers = [number for number, (it, after) in enumerate(zip(parameters, following), 1) if "*" in it and not re.match(r"size_t (\w+_)?len$", after)]
    made = ["WASMI_CHECKED"] * (given in ("uint8_t", "wasmi_reply"))
    return made + [f"WASMI_NOT_NULL({', '.join(map(str, pointers))})"] * bool(pointers)


def with_attributes(header):
    """The text of a header with the attributes of each call, on the last line of its prototype where there is room."""
    def written(found):
        given, name, parameters, _ = found.groups()
        bare = f"{given} {name}({parameters})"
        made = attributes(given, listed(parameters))
        if name in DEPRECATED:
            made.append(f'WASMI_DEPRECATED("{DEPRECATED[name]}")')
        added = " ".join(made)
        if not added:
            return f"{bare};"
        return f"{bare} {added};" if len(f"{bare} {added};".splitlines()[-1]) <= 120 else f"{bare}\n    {added};"
    return PROTOTYPE.sub(written, header)


def parameter_in_c(name, word, is_only_array):
    """The declarations that a parameter has in C: two for an array, of its first element and its length."""
    found = re.fullmatch(r"(&mut |&|)(\[)?(\w+)(; \d+)?(\])?", word)
    if not found:
        raise Unread(f"the parameter {name}: {word}")
    kind = type_in_c(found[3]) + " *" * bool(found[1])
    name = OTHER_NAMES.get((name, kind), name)
    made = ["const " * (found[1] == "&") + (f"{kind}{name}" if found[1] else f"{kind} {name}")]
    if found[2] and not found[4]:
        made.append("size_t len" if is_only_array else f"size_t {LENGTHS.get(name, f'{name}_len')}")
    return made


def signature_in_c(parameters, given, prototype):
    """A signature as C would write it. The length of the last array may be called `len`."""
    pairs = [tuple(it.strip().split(": ", 1)) for it in parameters.split(",") if it.strip() and not it.endswith(": Global")]
    arrays = [name for name, word in pairs if "[" in word and ";" not in word]
    made = [type_in_c(given) if given else "void"]
    for name, word in pairs:
        made += parameter_in_c(name, word, "size_t len" in prototype and [name] == arrays[-1:])
    return made


def differing_calls(header, source):
    """A sentence for each call whose prototype and signature differ in a name, a type or the order of the parameters."""
    found = re.findall(r'extern "C" fn (\w+)\(([^)]*)\)(?: -> (\w+))?', source)
    ours, theirs = prototypes(header), {name: (parameters, given) for name, parameters, given in found}
    for name in sorted(ours.keys() | theirs.keys()):
        if name not in ours or name not in theirs:
            yield f"{name} is only in the {'crate' if name in theirs else 'header'}"
        elif ours[name] != (wanted := signature_in_c(*theirs[name], ours[name])):
            header_has, crate_has = (f"{made[0]} ({', '.join(made[1:])})" for made in (ours[name], wanted))
            yield f"{name} is {header_has} in the header, and {crate_has} in the crate"


# ---- structs

def structs(header):
    """The structs of a header: by name, their fields in order, each with its type."""
    made = {}
    for body, name in re.findall(r"typedef struct \{(.*?)\} (\w+);", without_comments(header), re.S):
        lines = [line.strip().split(" ", 1) for line in body.split(";")[:-1]]
        made[name] = [spaced(f"{kind} {field}") for kind, fields in lines for field in fields.split(",")]
    return made


def fields_in_c(body):
    """The fields of a struct of a crate as C would write them."""
    for name, item, count in re.findall(r"^    pub (\w+): \[?(\w+)(?:; (\d+)\])?,$", body, re.M):
        kind = type_in_c(item)
        yield f"{kind} {OTHER_NAMES.get((name, kind), name)}" + (f"[{count}]" if count else "")


def differing_structs(header, source):
    """A sentence for each struct of a header whose fields differ from those of the struct in the crate."""
    names = {theirs: ours for ours, theirs in CRATE_TYPES.items()}
    for name, fields in ((name, fields) for name, fields in structs(header).items() if name not in OPAQUE):
        body = re.search(rf"#\[repr\(C\)\][^{{}}]*?pub struct {names.get(name)} \{{(.*?)^\}}", source, re.S | re.M)
        wanted = list(fields_in_c(body[1])) if body else ["none"]
        if fields != wanted:
            yield f"{name} has the fields ({', '.join(fields)}) in the header, and ({', '.join(wanted)}) in the crate"


# ---- statuses, kinds of calls, value types and answers

def capitals(name):
    """A name in capitals, its words apart: NewMemory is NEW_MEMORY."""
    return re.sub(r"(?<!^)(?=[A-Z])", "_", name).upper()


def enumerators(header):
    """The numbers of a header by their names without WASMI_."""
    return {name: int(number) for name, number in re.findall(r"\bWASMI_(\w+) = (\d+)", header)}


def crate_numbers(traps, source):
    """The numbers in the crates by the names that C has for them: the codes of traps, the statuses, the kinds of calls, and the places of
    the value types and of the answers."""
    made = {capitals(name): int(number) for name, number in re.findall(r"^    (\w+) = (\d+),$", traps, re.M)}
    made |= {name: int(number) for name, number in re.findall(r"pub const (\w+): u8 = (\d+);", source)}
    kinds = "".join(re.findall(r"match self\.kind \{(.*?)_ => return", source, re.S))
    types = re.search(r"pub const VAL_TYPES: .*? = \[(.*?)\n\];", source, re.S)[1]
    made |= {f"CALL_{KINDS.get(name, capitals(name))}": int(number) for number, name in re.findall(r"(\d+) => (?:Call::|return self\.)([a-zA-Z]+)", kinds)}
    made |= {f"CALL_{name}": int(number) for name, number in re.findall(r"const (\w+): u16 = (\d+);", source)}
    made |= {f"TYPE_{name.upper()}": number for number, name in enumerate(re.findall(r"ValType::(\w+),", types))}
    answers = re.findall(r"(?:\d+|_) => LimiterAnswer::(\w+),", source)
    return made | {f"ANSWER_{name.upper()}": number for number, name in enumerate(answers)}


def differing_numbers(ours, theirs):
    """A sentence for each number of the headers that the crates have otherwise or not at all, and for each kind of calls, value type and
    answer of the crates that the headers lack."""
    listed = {word for word in theirs if word.startswith(("CALL_", "TYPE_", "ANSWER_"))}
    for word in sorted(ours.keys() | listed, key=lambda word: (ours.get(word, 0), word)):
        if ours.get(word) != theirs.get(word):
            yield f"WASMI_{word} is {ours.get(word, 'nothing')} in the headers, and {theirs.get(word, 'nothing')} in the crates"
