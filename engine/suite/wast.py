"""Reads .wast files: S-expressions with their place, and literals as (type, bits)."""
import re
import struct

TOKEN = re.compile(
    r"(?P<space>\s+)|(?P<line>;;[^\n]*)|(?P<block>\(;)|(?P<open>\()|(?P<close>\))"
    r'|(?P<text>"(?:[^"\\]|\\.)*")|(?P<atom>[^\s()";]+)', re.S)
SHAPES = {"i8x16": (8, 16), "i16x8": (16, 8), "i32x4": (32, 4), "i64x2": (64, 2)}
ESCAPES = {"n": 10, "t": 9, "r": 13, '"': 34, "'": 39, "\\": 92}


class Unreadable(Exception):
    """A literal or form that this tool doesn't read."""


class Node(list):
    """A list with the place of its text."""
    __slots__ = ("start", "end", "line")


def parse(text):
    """All top-level nodes of a text."""
    top, stack, at, line = [], [], 0, 1
    while at < len(text):
        match = TOKEN.match(text, at)
        if not match:
            raise Unreadable(f"line {line}: {text[at:at + 20]!r}")
        kind, word = match.lastgroup, match.group()
        if kind == "block":
            depth, end = 1, at + 2
            while depth:
                opened, closed = text.find("(;", end), text.find(";)", end)
                if closed < 0:
                    raise Unreadable("open comment")
                if 0 <= opened < closed:
                    depth, end = depth + 1, opened + 2
                else:
                    depth, end = depth - 1, closed + 2
            line += text.count("\n", at, end)
            at = end
            continue
        if kind == "open":
            node = Node()
            node.start, node.line = at, line
            stack.append(node)
        elif kind == "close":
            node = stack.pop()
            node.end = match.end()
            (stack[-1] if stack else top).append(node)
        elif kind in ("atom", "text"):
            (stack[-1] if stack else top).append(word)
        line += word.count("\n")
        at = match.end()
    return top


def octets(word):
    """The bytes of a quoted text."""
    out, at, word = bytearray(), 0, word[1:-1]
    while at < len(word):
        if word[at] != "\\":
            out += word[at].encode()
            at += 1
        elif word[at + 1] in ESCAPES:
            out.append(ESCAPES[word[at + 1]])
            at += 2
        elif word[at + 1] == "u":
            end = word.index("}", at)
            out += chr(int(word[at + 3:end], 16)).encode()
            at = end + 1
        else:
            out.append(int(word[at + 1:at + 3], 16))
            at += 3
    return bytes(out)


def integer(word, width):
    value = int(word.replace("_", ""), 0) if not re.fullmatch(r"[+-]?0[0-9_]+", word) else int(word.replace("_", ""))
    if not -(1 << width - 1) <= value < 1 << width:
        raise Unreadable(f"{word} of {width} bits")
    return value % (1 << width)


def real(word, width):
    """The bits of a float literal, or the name of a class of NaNs."""
    word = word.replace("_", "")
    sign, plain = (1, word[1:]) if word[0] == "-" else (0, word.lstrip("+"))
    fraction, exponent = (23, 8) if width == 32 else (52, 11)
    top = sign << width - 1
    if plain in ("nan:canonical", "nan:arithmetic"):
        return plain
    if plain.startswith("nan"):
        payload = int(plain[4:], 0) if ":" in plain else 1 << fraction - 1
        return top | ((1 << exponent) - 1) << fraction | payload
    if plain == "inf":
        return top | ((1 << exponent) - 1) << fraction
    value = float.fromhex(plain) if plain.lower().startswith("0x") else float(plain)
    form = ("<f", "<I") if width == 32 else ("<d", "<Q")
    try:
        return top | struct.unpack(form[1], struct.pack(form[0], value))[0]
    except OverflowError:
        raise Unreadable(word)


def vector(shape, words):
    """A v128 of lanes, or these if one is a class of NaNs. binaryen 108 writes eight 16-bit lanes under i32x4: the number of words decides then."""
    if shape in SHAPES:
        width, count = SHAPES[shape]
        if len(words) != count:
            count, width = len(words), 128 // len(words)
        lanes = [integer(word, width) for word in words]
    else:
        width, count = {"f32x4": (32, 4), "f64x2": (64, 2)}[shape]
        lanes = [real(word, width) for word in words]
        if any(isinstance(lane, str) for lane in lanes):
            return lanes
    if len(lanes) != count or count not in (2, 4, 8, 16):
        raise Unreadable(f"{shape} of {len(words)} words")
    return sum(lane << width * i for i, lane in enumerate(lanes))


def value(node):
    """A constant as (type, bits); references are 0 for null and N + 1 for `ref.extern N`, None for any function; a list for `either`."""
    name = node[0]
    if name in ("i32.const", "i64.const"):
        return name[:3], integer(node[1], int(name[1:3]))
    if name in ("f32.const", "f64.const"):
        return name[:3], real(node[1], int(name[1:3]))
    if name == "v128.const":
        return "v128", vector(node[1], node[2:])
    if name == "ref.null":
        return "null", 0
    if name in ("ref.extern", "ref.host") and len(node) > 1:
        return "externref", int(node[1], 0) + 1
    if name == "ref.func":
        return "funcref", int(node[1], 0) + 1 if node[1:] and node[1].isdigit() else None
    if name == "float.const":
        return "float", node[1]
    if name == "either":
        return "either", [value(item) for item in node[1:]]
    raise Unreadable(f"a constant of {name}")
