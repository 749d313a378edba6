"""The repository: its crates and the files of their src/; and the parts of a page."""
import re
from pathlib import Path

ROOT = Path(__file__).resolve().parent.parent
# The folder of a crate with the examples of its definitions, one file for each file of specs/. No example is a use of anything.
EXAMPLES = "proofs/examples"
# The page of a crate that is made, and has each law of its callers.
REFERENCE = "REFERENCE.md"
# A name in a definition, a proof or a clause.
NAME = r"[^\s(){}\[\];,.]+"


def read(path):
    return path.read_text(encoding="utf-8")


def pages(root):
    """The pages of the repository, which are at most two folders deep."""
    return [page for depth in ("", "*/", "*/*/") for page in sorted(root.glob(f"{depth}*.md"))]


def crates(root):
    """The names in crates.txt, in order."""
    return re.findall(r"(?m)^\w+", read(root / "crates.txt"))


def proof_files(folder):
    """The files of a crate's proofs/, without those of examples."""
    return [it for it in sorted(folder.glob("proofs/**/*.antt")) if not it.is_relative_to(folder / EXAMPLES)]


def sources(folder):
    """The files of a crate's src/, without those of tests."""
    files = sorted(folder.glob("src/**/*.rt"))
    return [it for it in files if "tests" not in it.relative_to(folder).with_suffix("").parts]


def words_of(file):
    """The names in a source, a definition or a proof, without comments on lines of their own."""
    return re.findall(NAME, re.sub(r"(?m)^\s*(--|//).*$|::", " ", read(file)))


def public_types(files):
    """The names of the public types in some source files."""
    return {name for it in files for name in re.findall(r"(?m)^pub (?:struct|enum) (\w+)", read(it))}


def closed(items, following):
    """Some items and what follows from them, directly or by others."""
    found, rest = set(), list(items)
    while rest:
        item = rest.pop()
        if item not in found:
            found.add(item)
            rest += following(item)
    return found


def section(page, heading):
    """The lines of a page below a heading, up to the next of its rank."""
    found = re.search(rf"(?ms)^## {re.escape(heading)}$(.*?)(?=^## |\Z)", page)
    return found[1] if found else ""


def inline_code(page):
    """What stands between backticks, without the blocks of code."""
    return re.findall(r"`([^`]+)`", re.sub(r"(?ms)^```.*?^```$", "", page))
