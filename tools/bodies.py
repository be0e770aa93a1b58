"""What is read off a wrong body of conformance/planted: its function, and whether it has the function's own shape."""
import re

TOKEN = re.compile(r"""\s+|//[^\n]*|"(?:[^"\\]|\\.)*"|'(?:[^'\\]|\\.)'|\w[\w.]*|[-+*/%^&|]=|<<|>>|&&|\|\||[=!<>]=|->|=>|::|\.\.=?|.""", re.S)
WORDS = {"let", "mut", "if", "else", "match", "return", "for", "in", "while", "break", "continue", "ref", "move"}
# The operators that stand for one another: of comparisons, of numbers, of bits, and of conditions.
KINDS = {it: kind for kind in ("< > <= >= == !=", "+ - * / %", "<< >> ^ |", "&& ||", "+= -= *= /= %=") for it in kind.split()}


def path_of(body):
    """The function as `rt check --only` takes it: the module of its type or of its file, and its own name."""
    module = re.sub(r"^src/|\.rt$", "", body["file"]).removesuffix("lib").removesuffix("main").strip("/").replace("/", "::")
    module = body.get("module", module)
    return f"{module}::{body['function']}" if module else body["function"]


def shape(text):
    """A text with one sign for each name, path or number, and for each operator of one kind; without comments."""
    signs = [it for it in TOKEN.findall(text) if not it.isspace() and not it.startswith("//")]
    signs = ["x" if re.match(r"[\w\"']", it) and it not in WORDS else KINDS.get(it, it) for it in signs]
    return re.sub(r"x( :: x)+", "x", " ".join(signs))


def has_right_body(body):
    """Whether a row has a right body: one of its own, or, where the wrong one has the shape of what it replaces, the function itself."""
    return "right" in body or shape(body["old"]) == shape(body["new"])
