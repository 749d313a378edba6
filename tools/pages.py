"""Fails where a page links to, quotes or names what is not there.

It alone sees, for example, that docs/trust.md quotes the contract of `try_insert_str` otherwise than insert.rt has it, that a page links to
a heading which is gone, or that CALLING.md names a law which was renamed.

- A link `[words](PATH#ANCHOR)`, or a line `[words]: PATH#ANCHOR`, leads to a file or folder of the repository, or to a heading of a page.
  PATH is relative to the folder of the page. The anchor of a heading is GitHub's: in small letters, with dashes for spaces and without
  signs; a second heading of the same words has `-1` behind it. An address of the web is not looked up.
- A block of code after a line that ends in "From `PATH`:" has lines of that file. A line `..` in it stands for lines that are left out.
- What a page of a crate names in its inline code stands in some source, definition or proof: a piece of code that is one word (`try_` is
  none), a call `name(`, and what has a dash, as laws do. A law is also one that callers of the crate can cite. What has a dash in an answer,
  as `c.in_err-CALL.ensures`, is made by `rt` and none of them. The reference, which is made, is not looked at.
"""
import re
from collections import Counter
from urllib.parse import unquote

from modules import for_callers
from repository import REFERENCE, crates, inline_code, pages, proof_files, read, words_of

WORD = r"[A-Za-z_]\w*(?:-\w+)*"
BLOCK = re.compile(r"(?s)From\s`([^`\n]+)`:\n+```\w+\n(.*?)\n```")


def prose(page):
    """A page without its blocks of code."""
    return re.sub(r"(?ms)^ *```.*?^ *```$", "", read(page))


def anchors(page):
    """The anchors of the headings of a page."""
    found, seen = set(), Counter()
    for heading in re.findall(r"(?m)^#+ (.*)", prose(page)):
        name = re.sub(r"[^\w\- ]", "", re.sub(r"\]\([^)]*\)", "]", heading).lower()).replace(" ", "-")
        found.add(f"{name}-{seen[name]}" if seen[name] else name)
        seen[name] += 1
    return found


def links(page):
    """The links of a page that lead into the repository."""
    text = re.sub(r"`[^`]*`", "", prose(page))
    targets = re.findall(r"(?m)(?:\]\(|^\[[^\]]+\]: )([^)\s]+)", text)
    return [unquote(it) for it in targets if not re.match(r"\w+:", it)]


def leads_somewhere(root, page, target):
    """Whether there is what a link of a page leads to."""
    path, _, anchor = target.partition("#")
    file = (page.parent / path).resolve() if path else page
    if not file.is_relative_to(root):
        return False
    return file.is_file() and anchor in anchors(file) if anchor else file.exists()


def missing(block, text):
    """The first line of the part of a block that a text does not have, behind the parts before it; or nothing."""
    end = 0
    for part in re.split(r"(?m)\n\.\.$", f"\n{block}"):
        start = f"\n{text}".find(f"{part}\n", end)
        if start < 0:
            return part.split("\n")[1]
        end = start + len(part)
    return ""


def faults_of_quotes(root, page):
    """The blocks of a page that the files do not have which it names."""
    for path, block in BLOCK.findall(read(page)):
        line = missing(block, read(root / path)) if (root / path).is_file() else block.splitlines()[0]
        if line:
            yield f"{page.relative_to(root)}: {path} does not have these lines: {line} .."


def names_of(page):
    """What a page names in its inline code: calls, each with its bracket, what has a dash, and each piece that is one word."""
    pieces = [re.sub(r"\S*/\S*|(?<!\w)(?:-|[a-z]\.)\S*-\S*", "", it) for it in inline_code(page)]
    found = {name for it in pieces for name in re.findall(r"\b(?:\w+\(|\w+(?:-\w+)+)", it)}
    return {it for it in found | {it for it in pieces if re.fullmatch(WORD, it)} if not it.isupper() and not it.endswith("_")}


def names_there(root):
    """What the sources, definitions and proofs of the crates name, and the calls of the sources, each with its bracket."""
    folders = [root / "crates" / it for it in crates(root)]
    sources = [file for it in folders for file in it.glob("src/**/*.rt")]
    others = [file for it in folders for file in [*it.glob("specs/**/*.antt"), *proof_files(it)]]
    words = {word for it in (*sources, *others) for word in words_of(it)}
    calls = {f"{name}(" for it in sources for name in re.findall(r"\w+(?=(?:<[^()\n]*>)?\()", read(it))}
    return {*crates(root), *(part for word in words for part in re.findall(r"\w+(?:-\w+)*", word)), *calls}


def faults_of_names(root):
    """The names on the pages of crates that are not there, or are laws and none for the callers of the crate."""
    there = names_there(root)
    laws = {word for it in root.glob("crates/*/proofs/*.antt") for word in re.findall(r"(?m)^ *(?:pub )?(\w+-[\w-]+) :", read(it))}
    for crate in crates(root):
        citable = for_callers(root, crate)
        for page in sorted(it for it in (root / "crates" / crate).glob("*.md") if it.name != REFERENCE):
            for name in sorted(names_of(read(page))):
                if name not in there:
                    yield f"{page.relative_to(root)} names {name}, which no crate has"
                elif name in laws - citable:
                    yield f"{page.relative_to(root)} names {name}, which is no law for callers"


def main(arguments, root):
    targets = [(page, it) for page in pages(root) for it in links(page)]
    quoted = sum(len(BLOCK.findall(read(it))) for it in pages(root))
    faults = [f"{page.relative_to(root)}: {it} leads nowhere" for page, it in targets if not leads_somewhere(root, page, it)]
    faults += [it for page in pages(root) for it in faults_of_quotes(root, page)]
    faults += faults_of_names(root)
    print("\n".join(faults) or f"{len(targets)} links lead to files and headings, and {quoted} blocks of code are as in the files")
    return bool(faults) or not (targets and quoted)
