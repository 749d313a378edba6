"""Says which definitions a reader of the contracts has to agree with, and keeps specs/ to definitions.

It alone sees, for example, a definition of `specs` that no contract and no law reaches, one of a public contract that has no example, or a
row in docs/trust.md that quotes another error than its example proves.

tools/run trusted           how many definitions the contract of `run` reaches, and how many lines they have; then the same of all
                            public contracts of the LIBRARIES, and of all that there are
tools/run trusted --list    also prints them with their comments and first examples, in the order in which to read them: those of `run`,
                            the others of public contracts of the LIBRARIES, and the rest

A definition is an `abbrev`, `unfoldable`, `data` or `record` of a module of specs/, but no `abbrev` of an equation or of a
comparison. Its lines go from its name to its last clause, without comments and blank lines. What std defines is none, nor what
Rattle makes of a type of src/ (`specs.declared`). Contracts are the clauses of functions and the ghost members of impls. They
are public if the function is, or the type of an impl of a trait. One reaches the definitions of its words, those of their
words, and so on, and those of the `Model` of each type in its signature. Proofs are not followed, nor is the inverse of a
`Model`, which is proved. One reads in the order of crates.txt, of specs/Lib.antt and of the lines: what a definition is made
of comes before it.

An example of the definition `cut` is named `cut-inside_a_character`. It stands in the folder EXAMPLES of the crate, in a file that
is named as that of the definition. No example is followed: a definition that only examples name is told.

It fails at what is no definition in specs/, but in modules named GhostProofs (`rt` stops at a call of a tactic there); at a
definition that has no comment, or that no contract and no law reaches, where a law is what is `pub` in a module `..Laws`; at a
definition of a public contract of the LIBRARIES that has no example; where the table of PAGE is not of the edits of `run` in order; and
where a row of it has something else in its column `Example` than what examples of its definitions state, or a part of it.
"""
import re
import sys
from collections import namedtuple
from itertools import zip_longest

from modules import Modules, imports
from repository import EXAMPLES, NAME, closed, crates, inline_code, public_types, read, section, sources

LIBRARIES = ["arraystring_base", "arraystring_core", "arraystring", "arraystring_run", "bounded_records"]
PAGE = "docs/trust.md"
TABLE = "The table of edits"
FUNCTION = r"(?:pub(?:\(\w+\))? |const |unsafe )*fn "

Contract = namedtuple("Contract", "name is_public signature words")


def contracts(tree, source, of_library):
    """The contracts of a file of src/, laid out as `rt fmt` does; `of_library` are the public types of a library, else None."""
    source, imported, is_library = re.sub(r'//.*|"[^"\n]*"', "", source), imports(source), of_library is not None
    for block in re.split(rf"(?m)^(?={FUNCTION}|impl\b)", source):
        trait, kind = re.fullmatch(r"(?:impl(?:<(?:[^<>]|<[^<>]*>)*>)? (?:(.*) for )?(\w+))?[\s\S]*", block).groups("")
        is_public_type = is_library and kind in of_library
        for text in re.split(rf"(?m)^ *(?={FUNCTION})", block)[1:]:
            header = re.split(r"(?m)^ *\{\}?$| \{$", text)[0]
            signature, *clauses = re.split(r"\n *(?=(?:requires|ensures)\b)", header)
            parameters = re.findall(r"(\w+): ", signature)
            words = {name: it for name, it in imported.items() if name not in parameters}
            is_public = is_public_type if trait else is_library and text.startswith("pub ")
            name = re.search(r"fn (\w+)", text)[1]
            yield Contract(name, is_public, f"{kind} {signature}", tree.named("".join(clauses), words))
        for member in re.findall(r"(?ms)^ {4}ghost (?!use )(\w+ = \{.*?\});$", block):
            is_public = is_public_type and not member.startswith("inverse")
            yield Contract(f"{trait} for {kind}", is_public, "", tree.named(member, imported))


def closure(tree, found):
    """The definitions among some items, and those that they are made of, in order."""
    known = closed(found, lambda it: tree.words(it) if it.is_definition else [])
    return [it for it in tree.items if it.is_definition and it in known]


def faults_of_specs(tree, known):
    """What is in specs/ and is no definition, or is none that a contract or a law reaches."""
    laws = [word for it in tree.items if it.is_law for word in tree.words(it)]
    told = closure(tree, [word for it in known for word in it.words] + laws)
    for item in (it for it in tree.items if it.part == "specs" and it.path.stem != "GhostProofs"):
        if not item.is_definition:
            yield f"{item} is a proof: it belongs in proofs/, or in GhostProofs where a ghost member of src/ cites it"
        elif item not in told:
            yield f"{item} is reached by no contract and no law"
        if not item.comment:
            yield f"{item} has no comment"


def rows_of(page):
    """The rows of the tables of a page: the names in the first column, and the code in the column `Example`."""
    for table in re.findall(r"(?m)^\|.*\n\|---.*\n(?:\|.*\n)*", page):
        head, _, *rows = [line.split("|") for line in table.splitlines()]
        for row in rows:
            yield re.findall(r"`([^\s`]+)[^`]*`", row[1]), inline_code(dict(zip(head, row)).get("Example", ""))


def examples(root, item):
    """What the examples of a definition state."""
    file = root / item.path.parents[1] / EXAMPLES / item.path.name
    found = re.findall(rf"(?m)^({NAME}) : (.*(?:\n .*)*)", read(file)) if file.exists() else []
    return [re.sub(r"\n *", " ", it) for name, it in found if name.startswith(f"{item.name}-")]


def stated(root, item):
    """The same, and each part of it: `width 0x80 ≡ 2` of `(width 0x80 ≡ 2) × (width 0x7FF ≡ 2)`."""
    whole = examples(root, item)
    return whole + [re.sub(r"^\((.*)\)$", r"\1", part) for it in whole for part in it.split(" × ")]


def is_edit(item):
    """Whether a definition is a row of the table of edits."""
    return bool(re.search(r" : (.* → )?Edit [^→]*$", item.lines[0]))


def faults_of_page(root, headline):
    """Where the table of PAGE is not of the edits of the headline, or quotes what is none of their examples."""
    edits = [it for it in headline if is_edit(it)]
    rows = list(rows_of(section(read(root / PAGE), TABLE)))
    both = zip_longest([it.name for it in edits], [name for names, _ in rows for name in names])
    first = next((f"{PAGE} has {name} in the place of {it}" for it, name in both if it != name), None)
    if first:
        yield first
    of_edits = {it.name: stated(root, it) for it in edits}
    for names, quoted in rows:
        of_them = [it for name in names for it in of_edits.get(name, [])]
        if of_them and not quoted:
            yield f"{PAGE} quotes no example of {names[0]}"
        for code in quoted:
            if code not in of_them:
                yield f"{PAGE}: no example of {' or '.join(names)} states {code}"


def main(arguments, root):
    tree, known = Modules(root), []
    for crate in crates(root):
        files = sources(root / "crates" / crate)
        types = public_types(files) if crate in LIBRARIES else None
        known += [it for file in files for it in contracts(tree, read(file), types)]
    public = [it for it in known if it.is_public]
    models = {f"Model for {word}" for it in public if it.name == "run" for word in re.findall(r"\w+", it.signature)}
    headline = closure(tree, (word for it in public if it.name in {"run", *models} for word in it.words))
    everything = closure(tree, (word for it in public for word in it.words))
    all_of_them, listed = [it for it in tree.items if it.part == "specs" and it.is_definition], []
    for name, found in (("run", headline), ("all public contracts", everything), ("all of specs/", all_of_them)):
        print(f"{name}: {len(found)} definitions, {sum(len(it.lines) for it in found)} lines")
        if arguments == ["--list"]:
            print("".join(f"{line}\n" for it in found if it not in listed
                          for line in [f"{it}: {it.comment}", *(f"    {text}" for text in examples(root, it)[:2])]))
        listed += found
    bare = [f"{it} has no example in {EXAMPLES}/{it.path.name}" for it in everything if not examples(root, it)]
    faults = [*faults_of_specs(tree, known), *bare, *faults_of_page(root, headline)]
    print("".join(f"{it}\n" for it in faults), end="", file=sys.stderr)
    return bool(faults)
