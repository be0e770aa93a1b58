"""Writes the calls that the programs of this folder make in two libraries at once. usage: beside.py FOLDER

From the prototypes of include/ it writes FOLDER/beside.c, with a function for --wrap for each function of the headers, FOLDER/wraps, the
linker's options, FOLDER/names, the new names of the other library's functions for `objcopy --redefine-syms`, and FOLDER/parts, what of each
function is compared. Each function calls the library that a program is linked with, and on copies of all that is written the other one,
and compares the results, what was written, and the bytes around the copies. A handle's twin is found by the handle's pointer. A call for
which a request for memory was refused isn't compared, nor what follows on its handle, since the two don't make the same requests. When the
program ends, how often each function was called and differed is added to the file that BESIDE names, and the status is 1 if one differed.
With BESIDE_PLANTED each part is made to differ once, and added to that file; a difference that isn't seen ends the program with 3."""
import pathlib
import sys

sys.dont_write_bytecode = True
TOP = pathlib.Path(__file__).resolve().parents[2]
sys.path.insert(0, str(TOP / "tools"))
from prototypes import prototypes, structs

HANDLES = ("wasmi_machine", "wasmi_pool")
HEAD = """#define _GNU_SOURCE
#include "wasmi_instructions.h"
#include "wasmi_machine.h"
#include "wasmi_memory.h"
#include "wasmi_oracle.h"
#include <pthread.h>
#include <stdio.h>
#include <stdlib.h>
#include <string.h>
#include <unistd.h>

enum { EDGE = 64, MOST_HANDLES = 4096, OTHER = 0xa7 };

static struct { const char *name; long calls, differ; unsigned planted; } functions[COUNT];
static bool is_planting;
static pthread_mutex_t lock = PTHREAD_MUTEX_INITIALIZER;
static struct { uint8_t *at; wasmi_machine twin; } twins[MOST_HANDLES];

/* A copy with an edge on both sides. */
#define COPY(at, size) copied(__builtin_alloca((size) + 2 * EDGE), at, size)
static void *copied(uint8_t *room, const void *from, size_t size) {
    memset(room, OTHER, EDGE);
    if (size > 0)
        memcpy(room + EDGE, from, size);
    memset(room + EDGE + size, OTHER, EDGE);
    return room + EDGE;
}

static bool has_edges(const void *copy, size_t size) {
    const uint8_t *at = copy;
    for (size_t i = 0; i < EDGE; i++)
        if (at[i - EDGE] != OTHER || at[size + i] != OTHER)
            return false;
    return true;
}

/* The twin of a handle is taken out before a call, and put in after it. A handle has none from a call on for which memory
   was refused, unless it is said to have changed nothing. */
static wasmi_machine taken(uint8_t *at, bool is_made, bool *is_compared) {
    wasmi_machine twin = {0};
    size_t i = 0;
    pthread_mutex_lock(&lock);
    while (is_made && i < MOST_HANDLES && twins[i].at != at)
        i++;
    if (i == MOST_HANDLES) {
        *is_compared = false;
    } else if (is_made) {
        twin = twins[i].twin;
        twins[i].at = NULL;
    }
    pthread_mutex_unlock(&lock);
    return twin;
}

static bool put(uint8_t *at, bool is_made, wasmi_machine twin) {
    pthread_mutex_lock(&lock);
    for (size_t i = 0; is_made; i++)
        if (i == MOST_HANDLES)
            abort();
        else if (twins[i].at == NULL) {
            twins[i].at = at;
            twins[i].twin = twin;
            break;
        }
    pthread_mutex_unlock(&lock);
    return is_made == twin.is_made;
}

/* The first part of a function that has something in it and wasn't made to differ before, or -1. */
static int planted_part(int function, int count, const size_t *sizes) {
    int part = 0;
    pthread_mutex_lock(&lock);
    while (is_planting && part < count && (sizes[part] == 0 || functions[function].planted & 1u << part))
        part++;
    if (is_planting && part < count)
        functions[function].planted |= 1u << part;
    else
        part = -1;
    pthread_mutex_unlock(&lock);
    return part;
}

static void counted(int function, const char *name, bool is_same, int part) {
    pthread_mutex_lock(&lock);
    functions[function].name = name;
    functions[function].calls++;
    if (part >= 0 && is_same) {
        printf("%s: a difference that is planted isn't seen\\n", name);
        fflush(NULL);
        _exit(3);
    }
    if (part < 0 && !is_same && functions[function].differ++ < 3)
        printf("%s differs\\n", name);
    pthread_mutex_unlock(&lock);
}

__attribute__((constructor)) static void begun(void) {
    is_planting = getenv("BESIDE_PLANTED") != NULL;
}

__attribute__((destructor)) static void told(void) {
    const char *name = getenv("BESIDE");
    FILE *file = name != NULL ? fopen(name, "a") : NULL;
    int differ = file == NULL;
    for (int i = 0; i < COUNT && file != NULL; i++) {
        if (functions[i].calls > 0)
            fprintf(file, "%s %ld %ld\\n", functions[i].name, functions[i].calls, functions[i].differ);
        for (int part = 0; part < 32; part++)
            if (functions[i].planted >> part & 1)
                fprintf(file, "planted %s %d\\n", functions[i].name, part);
        differ |= functions[i].differ > 0;
    }
    if (file == NULL || fclose(file) != 0 || differ) {
        fflush(NULL);
        _exit(1);
    }
}

/* Those of blocks.h, in a program that has them. */
__attribute__((weak)) _Thread_local long requests, refused;
"""


def same_struct(name, fields):
    """A function that compares two structs by their fields, since the bytes between them may be any."""
    words = [it.split(" ", 1) for it in fields]
    tests = [f"same_{kind}(&a->{field}, &b->{field})" if kind.startswith("wasmi_") else
             f"!memcmp(a->{field.split('[')[0]}, b->{field.split('[')[0]}, sizeof a->{field.split('[')[0]})" if "[" in field else f"a->{field} == b->{field}"
             for kind, field in words]
    return f"static inline bool same_{name}(const {name} *a, const {name} *b) {{\n    return {' && '.join(tests)};\n}}\n"


def parameters_of(parameters):
    """What each parameter is: its type, its name, how many items it points to or None, and whether they are written."""
    made = []
    for at, it in enumerate(parameters):
        kind, name = it.rsplit(" ", 1)
        following = parameters[at + 1].split() if at + 1 < len(parameters) else [""]
        is_array = following[0] == "size_t" and following[-1].endswith("len")
        count = (following[-1] if is_array else "1") if name.startswith("*") else None
        made.append((kind.removeprefix("const "), name.lstrip("*"), count, not kind.startswith("const ")))
    return made


def arrays_of(parameters):
    """What a function writes besides handles: the type, the name, and how many items it has."""
    return [(kind, field, count) for kind, field, count, is_written in parameters_of(parameters) if count and is_written and kind not in HANDLES]


def uncompared(kinds, puts, is_unchanged, end):
    """What a function does where it compares nothing: the twin stays if nothing was changed, and ends otherwise."""
    lines = ["    if (!is_compared || (which > before && which <= after)) {"]
    for put, (kind, field) in zip(puts, kinds):
        lines += [f"        is_compared &= {is_unchanged};", "        if (is_compared)", f"            {put};", "        else", f"            source_{kind}_drop(&{field}_twin);"]
    return [*lines, f"    {end}", "    }"]


def compared(given, arrays):
    """The comparison of what the two libraries gave and wrote."""
    lines = ["    bool is_same = true;"] if given == "void" else [f"    bool is_same = {same(given, 'here', 'there')};"]
    for kind, field, _ in arrays:
        lines += [f"    is_same &= has_edges({field}_twin, {field}_size);", f"    for (size_t i = 0; i < {field}_size / sizeof *{field}; i++)"]
        lines += [f"        is_same &= {same(kind, f'{field}[i]', f'{field}_twin[i]')};"]
    return lines


def same(kind, one, other):
    return f"same_{kind}(&{one}, &{other})" if kind.startswith("wasmi_") else f"{one} == {other}"


def wrapper(number, name, given, parameters):
    """The function that takes the place of one of the headers."""
    its, arrays = parameters_of(parameters), arrays_of(parameters)
    handles = [(kind, field) for kind, field, _, _ in its if kind in HANDLES]
    lines = [f"{given} __wrap_{name}({', '.join(parameters) or 'void'}) {{", "    bool is_compared = true;"]
    for kind, field in handles:
        lines += [f"    wasmi_machine {field}_found = taken({field}->at, {field}->is_made, &is_compared);", f"    {kind} {field}_twin = {{{field}_found.at, {field}_found.is_made}};"]
    for kind, field, count in arrays:
        lines += [f"    size_t {field}_size = {field} == NULL ? 0 : {count} * sizeof *{field};", f"    {kind} *{field}_twin = COPY({field}, {field}_size);"]
    twins = {field: f"&{field}_twin" for _, field in handles} | {field: f"{field}_size == 0 ? {field} : {field}_twin" for _, field, _ in arrays}
    puts = [f"put({field}->at, {field}->is_made, (wasmi_machine){{{field}_twin.at, {field}_twin.is_made}})" for _, field in handles]
    is_unchanged = "here.status == WASMI_NO_ROOM" if given.startswith("wasmi_") else "false" if given == "void" else "here == WASMI_NO_ROOM"
    here, there, end = ("", "", "    return;") if given == "void" else (f"{given} here = ", f"{given} there = ", "    return here;")
    lines += ["    const long before = requests;", f"    {here}__real_{name}({', '.join(field for _, field, _, _ in its)});", "    const long after = requests, which = refused;"]
    lines += [*uncompared(handles, puts, is_unchanged, end), "    refused = 0;"]
    lines += [f"    {there}source_{name}({', '.join(twins.get(field, field) for _, field, _, _ in its)});", "    requests = after, refused = which;"]
    parts = parts_of(given, arrays)
    lines += [f"    const size_t sizes[] = {{{', '.join(size for size, _ in parts) or '0'}}};", f"    int part = planted_part({number}, {len(parts)}, sizes);"]
    lines += [f"    if (part == {at})\n        {difference};" for at, (_, difference) in enumerate(parts)]
    lines += [*compared(given, arrays), *(f"    is_same &= {it};" for it in puts)]
    return "\n".join([*lines, f'    counted({number}, "{name}", is_same, part);', end, "}"])


def parts_of(given, arrays):
    """What of a call is compared: how large it is, and how it is made to differ."""
    made = [] if given == "void" else [("1", "there.status ^= 1" if given.startswith("wasmi_") else "there ^= 1")]
    made += [(f"{field}_size", f"*(uint8_t *){field}_twin ^= 1") for _, field, _ in arrays]
    return made + [("1", f"((uint8_t *){field}_twin)[{field}_size] ^= 1") for _, field, _ in arrays]


def main(folder):
    headers = [it.read_text() for it in sorted((TOP / "include").glob("wasmi_*.h"))]
    calls = {name: it for header in headers for name, it in prototypes(header).items()}
    kinds = {name: fields for header in headers for name, fields in structs(header).items() if name not in HANDLES}
    texts = [HEAD.replace("COUNT]", f"{len(calls)}]").replace("< COUNT ", f"< {len(calls)} "), *(same_struct(*it) for it in kinds.items())]
    texts += [f"{given} {front}_{name}({', '.join(parameters) or 'void'});" for front in ("__real", "source") for name, (given, *parameters) in calls.items()]
    texts += [wrapper(number, name, given, parameters) for number, (name, (given, *parameters)) in enumerate(calls.items())]
    (folder / "beside.c").write_text("\n".join(texts) + "\n")
    (folder / "wraps").write_text("".join(f"-Wl,--wrap={name}\n" for name in calls))
    parts = {name: len(parts_of(given, arrays_of(parameters))) for name, (given, *parameters) in calls.items()}
    (folder / "parts").write_text("".join(f"{name} {part}\n" for name, count in parts.items() for part in range(count)))
    (folder / "names").write_text("".join(f"{name} source_{name}\n" for name in calls))


main(pathlib.Path(sys.argv[1]))
