"""The crates of crates.txt, the words by which the kit's rattle takes the libraries that `rt ci` or `rt all check` built of them, and the documents."""
import hashlib
import pathlib
import shutil
import subprocess
import time

TOP = pathlib.Path(__file__).resolve().parent.parent
KIT = pathlib.Path(shutil.which("rt") or "").resolve().parent.parent
RATTLE = f"{KIT}/bin/rattle"
# The documents of the repository, as patterns from its top.
DOCUMENTS = ("*.md", "docs/*.md", "bench/*.md", "conformance/*.md", "crates/*/*.md", "engine/*.md", "examples/*/*.md", "rust/*.md", "rust/*/*.md")


def files():
    """The files of the repository, as a clone has them."""
    listed = subprocess.run(["git", "ls-files", "-coz", "--exclude-standard"], cwd=TOP, capture_output=True, text=True, check=True).stdout
    return [name for name in sorted(filter(None, listed.split("\0"))) if (TOP / name).is_file()]


def copied(folder):
    """Makes a folder a copy of the repository's files, in one commit."""
    for name in files():
        (folder / name).parent.mkdir(parents=True, exist_ok=True)
        shutil.copy(TOP / name, folder / name)
    for words in (["init", "-q"], ["add", "-A"], ["-c", "user.name=copy", "-c", "user.email=copy@localhost", "commit", "-qm", "copy"]):
        subprocess.run(["git", *words], cwd=folder, check=True)


def crates(top=TOP):
    """Returns what each crate's line of crates.txt names, by its name."""
    lines = ((top / "crates.txt").read_text()).split("\n")
    split = [line.partition("#")[0].partition(":") for line in lines]
    return {crate.split()[0]: below.split() for crate, _, below in split if crate.strip()}


def all_below(crate, named):
    """Returns the crates below a crate, each once, the lowest first."""
    found = []
    for below in named.get(crate, ()):
        found += [it for it in [*all_below(below, named), below] if it not in found and it in named]
    return found


def words_for(crate, library=None):
    """Returns rattle's words for a crate of this name in the current folder, over the libraries that stand there, or in the folders of `library`."""
    named, root = crates(), "src/lib.rt" if (TOP / "crates" / crate / "src/lib.rt").exists() else "src/main.rt"
    library = library or {it: f"{TOP}/crates/{it}/out/rlib" for it in all_below(crate, named)}
    words = ["--crate-name", crate, root, "--extern", f"std={KIT}/rlibs/std.rlib", "-L", f"dependency={KIT}/rlibs"]
    for it in named[crate]:
        words += ["--extern", f"{it}={library.get(it, f'{KIT}/rlibs')}/{it}.rlib"]
    for folder in library.values():
        words += ["-L", f"dependency={folder}"]
    return words + ["--antt-project", f"{KIT}/rattle/logic/antt-project.json", "--logic-built", f"{KIT}/logic_built"]


def text_of(crate, top=TOP):
    """Returns a hash of what a crate of a tree is built from: its text, that of the crates below it, their lines of crates.txt, and the kit."""
    named = crates(top)
    found = hashlib.sha256((KIT / "KIT-ID").read_bytes() if (KIT / "KIT-ID").exists() else b"no kit")
    for it in [*all_below(crate, named), crate]:
        found.update(f"{it}: {named[it]}\n".encode())
        for path in sorted(path for part in ("src", "specs", "proofs") for path in (top / "crates" / it / part).rglob("*") if path.is_file()):
            found.update(f"{path.relative_to(top)} {hashlib.sha256(path.read_bytes()).hexdigest()}\n".encode())
    return found.hexdigest()


def products(crate, top=TOP):
    """Returns what a build has left of a crate: the library's folder, the program, the archives and their bitcode."""
    out = top / "crates" / crate / "out"
    return [it for it in [out / f"rlib/{crate}.rlib", out / crate, *sorted(out.glob("*.a")), *sorted(out.glob("*.bc"))] if it.exists()]


def sums_of(crate, top=TOP):
    """Returns a line for each product, with its hash if it's a file."""
    return "".join(f"{it.name} {hashlib.sha256(it.read_bytes()).hexdigest() if it.is_file() else ''}\n" for it in products(crate, top))


def leave_text(crate, text, top=TOP):
    """Says beside the products of a crate from what text they were built."""
    (top / "crates" / crate / "out/built").write_text(f"{text}\n{sums_of(crate, top)}")


def other_text(crate, top=TOP):
    """Returns why what stands in the folder out/ of a crate isn't built from its text, or nothing if it is."""
    said = top / "crates" / crate / "out/built"
    if not products(crate, top):
        return f"nothing is built of {crate}: .ci/run does it"
    if not said.exists() or said.read_text() != f"{text_of(crate, top)}\n{sums_of(crate, top)}":
        return f"what is built of {crate} isn't of its sources as they are: .ci/run builds it anew"
    return None


def other_text_of(program):
    """Returns why a program isn't built from the sources as they are, if it is one that a build left here; of another program nothing is known."""
    path = pathlib.Path(program).resolve()
    return next((other_text(it) for it in crates() if path in [product.resolve() for product in products(it)]), None)


def build(command, folder=None):
    """Runs a command, and says of what it builds from what text it is; of a crate whose text has changed since, nothing is said. The status of the command.

    An archive of another text that the command leaves as it was is removed: nothing would tell it from those that are new."""
    texts, stale, start = {it: text_of(it) for it in crates()}, {it for it in crates() if other_text(it)}, time.time()
    status = subprocess.run(command, cwd=folder).returncode
    for crate in crates() if status == 0 else ():
        left = [it for it in products(crate) if it.stat().st_mtime < start]
        if len(left) == len(products(crate)) or text_of(crate) != texts[crate]:
            continue
        for it in left if crate in stale else ():
            if it.suffix in (".a", ".bc"):
                it.unlink()
        leave_text(crate, texts[crate])
    return status
