"""Text that is made of rows: definitions in lines of at most 120 characters, and the parts of files between two comments that say who writes them."""
import re
import textwrap

from libraries import TOP

BEGINS, ENDS = "What tools/generate writes begins.", "What tools/generate writes ends."
FIXED = "\N{NO-BREAK SPACE}"
PART = re.compile(rf"^( *(?:--|//|/\*) {BEGINS}(?: \*/)?\n).*?^( *(?:--|//|/\*) {ENDS}(?: \*/)?\n)", re.M | re.S)


def glued(text):
    """A text whose groups of up to 75 characters in brackets have no place for a break."""
    made, depth, start = "", 0, 0
    for k, letter in enumerate(text):
        depth += (letter == "(") - (letter == ")")
        start = k if letter == "(" and depth == 1 else start
        if depth == 0:
            group = text[start:k + 1] if letter == ")" else letter
            made += group.replace(" ", FIXED) if len(group) <= 75 and letter == ")" else f"({glued(group[1:-1])})" if letter == ")" else letter
    return made


def filled(text, indent=0, deeper=4):
    """A text in lines of at most 120 characters, of which all but the first are set in. A product or a sum is broken before its parts."""
    pad, (head, _, value) = " " * indent, text.partition(" = ")
    if len(pad + text) <= 120:
        return f"{pad}{text}\n".replace(FIXED, " ")
    operator = next((it for it in (" × ", " ⊎ ") if it in value), None)
    if operator:
        text = f"{head} = ".replace(" ", FIXED).removesuffix(FIXED) + " " + f" {operator[1]}{FIXED}".join(it.replace(" ", FIXED) for it in value.split(operator))
    made = textwrap.fill(glued(text), 120, initial_indent=pad, subsequent_indent=pad + " " * deeper, break_long_words=False, break_on_hyphens=False)
    return made.replace(FIXED, " ") + "\n"


def definition(comment, name, type, lines, public="abbrev pub ", indent=0):
    return "".join([*(f"{' ' * indent}-- {line}\n" for line in textwrap.wrap(comment, 117 - indent)), filled(f"{public}{name} : {type}", indent), *lines])


def texts(files, rows):
    """The files as they are to be: of each what stands between each two comments in turn, each made of the rows."""
    for name, parts in files.items():
        path = TOP / name
        pieces = PART.split(path.read_text())
        if len(pieces) != 3 * len(parts) + 1:
            raise SystemExit(f"{name} has {len(pieces) // 3} parts between the comments, and not {len(parts)}")
        for k, makers in enumerate(parts):
            pieces[3 * k + 1] += "\n".join(make(rows) for make in makers) + "\n" * (path.suffix == ".antt")
        yield path, "".join(pieces)
