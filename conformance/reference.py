"""Looks at the reference of the headers in a package that is unpacked: in HTML and as man pages. Both have to have each function as its header has it;
the HTML no script, no link that leads elsewhere or nowhere, and no file that no page leads to; and each header, struct and function a man page, without a date. usage: python3 reference.py PREFIX. It prints what is wrong, a line each, and last how much there is; the status is 1 if something is."""
import html.parser
import pathlib
import re
import sys

sys.dont_write_bytecode = True
sys.path.insert(0, str(pathlib.Path(__file__).resolve().parent.parent / "tools"))
from prototypes import listed, prototypes, spaced, structs


class Page(html.parser.HTMLParser):
    """A page: the names of its places, where its links lead, what is a script, and the text of each declaration, in the list and with its text."""

    def __init__(self, path):
        super().__init__()
        self.places, self.links, self.scripts, self.declared, self.ends_by = set(), [], [], [], None
        self.feed(path.read_text())

    def handle_starttag(self, tag, attrs):
        given = dict(attrs)
        self.places |= {given[it] for it in ("id", "name") if it in given}
        links = [given[it] for it in ("href", "src", "data") if it in given]
        self.links += links
        if tag in ("script", "iframe", "object", "embed") or any(it.startswith("on") for it in given) or any(it.startswith("javascript:") for it in links):
            self.scripts.append(self.get_starttag_text())
        if re.match("memproto|memitem:", given.get("class") or ""):
            self.ends_by = tag
            self.declared.append("")

    def handle_endtag(self, tag):
        if tag == self.ends_by:
            self.ends_by = None

    def handle_data(self, data):
        if self.ends_by:
            self.declared[-1] += data


def calls(texts):
    """The functions among declarations: by name, for each of its declarations what it returns, its parameters, and what else stands there."""
    made = {}
    for found in (re.match(r"(.+?) ?\b(wasmi_\w+) ?\(([^()]*)\) ?(.*)", spaced(text)) for text in texts):
        if found:
            made.setdefault(found[2], []).append([found[1], *listed(found[3]), *filter(None, [found[4]])])
    return made


def differing(kind, wanted, inlined, found):
    """A line for each call that the reference hasn't twice as its header has it, in the list and with its text, and for each function with a body that it lacks."""
    for name in wanted:
        if found.get(name) != [wanted[name]] * 2:
            yield f"{kind}: {name}: {found.get(name, 'nothing')}, and in the header {wanted[name]}"
    yield from (f"{kind}: there is no {name}" for name in inlined if name not in found)


def wrong_pages(folder, pages):
    """A line for each script, each link that leads nowhere, and each file that no page leads to."""
    reached = {"index.html"}
    for name, page in pages.items():
        yield from (f"{name} has a script: {it}" for it in page.scripts)
        for link in page.links:
            path, _, place = link.partition("#")
            path = path or name
            reached.add(path)
            if not (folder / path).is_file() or place and (path not in pages or place not in pages[path].places):
                yield f"{name} leads to {link}, which isn't there"
    yield from (f"no page leads to {it.name}" for it in sorted(folder.iterdir()) if it.name not in reached)


def wrong_man(folder, pages, names):
    """A line for each name that has no man page, each page of something else, and each page that has a date or leads to none."""
    yield from (f"{it} is a man page that isn't there, or of nothing in the headers" for it in sorted({f"{it}.3" for it in names} ^ pages.keys()))
    for name, text in pages.items():
        first = text.split("\n", 1)[0]
        if first.startswith(".so "):
            if not (folder.parent / first[4:]).is_file():
                yield f"the man page {name} leads to {first[4:]}, which isn't there"
        elif not re.match(rf'\.TH "{re.escape(name[:-2])}" 3 "" ', first):
            yield f"the man page {name} begins with {first}"


def main(prefix):
    prefix = pathlib.Path(prefix)
    headers = {it.name: it.read_text() for it in sorted(prefix.glob("include/*.h"))}
    wanted = {name: its for text in headers.values() for name, its in prototypes(text).items()}
    inlined = [name for text in headers.values() for name in re.findall(r"^static inline [\w *]*?\b(wasmi_\w+)\(", text, re.M)]
    named = {*headers, *wanted, *inlined, *(name for text in headers.values() for name in structs(text))}
    folder, man = prefix / "share/doc/wasmi_core/html", prefix / "share/man/man3"
    pages = {it.name: Page(it) for it in sorted(folder.glob("*.html"))}
    man_pages = {it.name: it.read_text() for it in sorted(man.iterdir())} if man.is_dir() else {}
    in_man = [re.sub(r"\\f.|\\&", "", it) for text in man_pages.values() for it in re.findall(r'^\.(?:SS|RI) "(.*)"$', text, re.M)]
    wrong = [
        *differing("HTML", wanted, inlined, calls(text for page in pages.values() for text in page.declared)),
        *differing("man", wanted, inlined, calls(in_man)),
        *(wrong_pages(folder, pages) if folder.is_dir() else ["there is no HTML"]),
        *wrong_man(man, man_pages, named),
    ]
    print(*wrong, f"{len(wanted) + len(inlined)} functions, {len(pages)} pages, {len(man_pages)} man pages", sep="\n")
    return int(bool(wrong) or not wanted)


sys.exit(main(*sys.argv[1:]))
