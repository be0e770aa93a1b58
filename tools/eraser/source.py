"""A source in Rattle with its comments, texts and ghost parts put aside, so that a rule can be a pattern."""

import re

KINDS = {"//!": "d", "///": "d", "//": "c", "ghost use": "u", "ghost": "g", "requires": "q", "ensures": "q"}
PUT_ASIDE = re.compile(
    r"""(?P<comment>//[/!]?)[^\n]*
    | b?"(?:[^"\\]|\\.)*" | b?'(?:[^'\\\n]|\\(?:x..|u\{[^}]*\}|.))'
    | \b(?P<use>ghost\ use)\b[^;]*;
    | \b(?P<ghost>ghost)\s+\w+\s*[=:]\s*(?=\{) | \b(?P<clause>requires|ensures)\*?(?:\s+\w+)?\s*(?=\{)""",
    re.S | re.X,
)
BRACKET = re.compile(r'[()\[\]{}]|"[^"\\\n]*"')
MARK = re.compile(r"«\w(\d+)»")


class Unknown(Exception):
    """Something in the sources that the eraser doesn't know."""


def closing(text, at):
    """The place after the bracket that closes the one at `at`."""
    depth = 0
    for found in BRACKET.finditer(text, at):
        depth += (found[0] in "([{") - (found[0] in ")]}")
        if depth == 0:
            return found.end()
    raise Unknown(f"no end: {text[at:at + 60]!r}")


def body(text, at):
    """The place of the `{` of the item whose head goes on at `at`, or of the `;` in its place."""
    while text[at] not in "{;":
        at = closing(text, at) if text[at] in "([" else at + 1
    return at


class Source:
    """A file. Its `text` has a mark in place of each part that is put aside: `«d0»` of docs, `c` of another comment, `s` of a text,
    `u` of a ghost import, `g` of a ghost item, `q` of a clause."""

    def __init__(self, text):
        if "«" in text:
            raise Unknown("the sign «")
        self.kept, made, at = [], [], 0
        while found := PUT_ASIDE.search(text, at):
            word, end = next((it for it in found.groups() if it), ""), found.end()
            if word in ("ghost", "requires", "ensures"):
                end = closing(text, end)
                end += word == "ghost" and text[end] in ";,"
            made += [text[at:found.start()], self.mark(KINDS.get(word, "s"), text[found.start():end])]
            at = end
        self.text = "".join(made) + text[at:]

    def mark(self, kind, text):
        """Puts a text aside."""
        self.kept.append(text)
        return f"«{kind}{len(self.kept) - 1}»"

    def of(self, mark):
        return self.kept[int(MARK.match(mark)[1])]

    def all_of(self, kind):
        """What was put aside of a kind and still has its mark."""
        return [self.of(it) for it in re.findall(rf"«{kind}\d+»", self.text)]

    def whole(self):
        """The text with what was put aside."""
        return MARK.sub(lambda it: self.of(it[0]), self.text)

    def sub(self, pattern, new, flags=0):
        """Replaces a pattern; how often it was found."""
        self.text, count = re.subn(pattern, new, self.text, flags=flags)
        return count
