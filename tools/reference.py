"""Makes the reference for callers of the string out of the sources, so that nobody keeps a list of calls or laws by hand.

It alone sees, for example, that the clause of a call or the comment of a law was changed, and that the page still has the old one, or that
callers can't import a new definition, because a module of specs/ that also has old names lists what it passes on.

tools/run reference            fails where PAGE is not what the sources make, and where such a module lacks a definition
tools/run reference --write    writes PAGE, and adds what those modules lack

A call is a public function that callers of `arraystring` reach, and an impl of a trait one of a type of it. Each stands there with the
first sentence of its comment, its signature and its clauses. A law is what is `pub` in the modules that proofs/Lib.antt passes on. Each
stands there with its comment, its statement and the rulesets that have it, and a word of specs/Lib.antt with its definition.
"""
import re
import textwrap
from itertools import zip_longest

from modules import IMPORT, Item, Modules, module_of
from repository import NAME, REFERENCE, read

PAGE = f"crates/arraystring/{REFERENCE}"
LAWS = "laws.rt"
BASE, CORE, TOP = "crates/arraystring_base", "crates/arraystring_core", "crates/arraystring"
# What an impl proves of itself, and no word of a contract.
PROVED = r"laws|inverse\w*|total|respects_eq|matches_\w+"
HEAD = """\
# Reference

`tools/run reference --write` makes this page from the sources, and `tools/run check` says where it is not as they are. It has
[the calls](#calls), [the laws that a body calls](#laws-that-a-body-calls), [the rulesets](#rulesets), [the laws that an answer
cites](#laws-that-an-answer-cites), [the words of contracts](#words-of-contracts) and [those of std](#words-of-std). How to use them is said
in [CALLING.md](CALLING.md) and [RECIPES.md](RECIPES.md).
"""


def listed(beginning, names):
    """A line of a list, which ends with some names."""
    text = f"{beginning} {', '.join(f'`{it}`' for it in names)}"
    return textwrap.fill(text, 138, initial_indent="- ", subsequent_indent="  ", break_on_hyphens=False) + "\n"


def sentence(comment):
    """The first sentence of some lines that each begin with a sign of a comment."""
    words = [it.strip(" /!-") for it in comment.strip().split("\n")]
    return re.match(r".*?[.](?= |$)|.*", " ".join([*words, ""][: [*words, ""].index("")]))[0]


def wrapped(text, sign, indent=""):
    """A comment as lines of code."""
    return textwrap.wrap(text, 100, initial_indent=f"{indent}{sign} ", subsequent_indent=f"{indent}{sign} ", break_on_hyphens=False)


def header(text):
    """The signature of a function and its clauses."""
    return re.split(r"(?m)\s*\{\}?$", text)[0]


def functions(text):
    """The public functions of a part of a source, by their names: the first sentence of each, its signature and its clauses."""
    for found in re.finditer(r"(?m)((?:^ *///.*\n)*)(?:^ *#\[.*\n)*^( *)pub (?:const )?fn (\w+)", text):
        yield found[3], textwrap.dedent("\n".join([*wrapped(sentence(found[1]), "///", found[2]), header(text[found.start(2):])]))


def impl(text):
    """An impl of a trait: the first sentence of its comment, the members that contracts see, and the methods that have clauses."""
    comment, first = re.match(r"((?:///.*\n)*)(impl.*?)(?: \{| \{\})$", text, re.M).groups()
    members = [it for it in re.findall(r"(?ms)^ {4}ghost (?!use )\w+ = \{.*?\};$", text) if not re.match(rf" *ghost ({PROVED}) =", it)]
    methods = [f"    {header(it)}" for it in re.findall(r"(?ms)^ {4}(fn .*?)\n^ {4}\}", text)]
    return "\n".join([*wrapped(sentence(comment), "///"), first, *members, *(it for it in methods if "\n        ensures " in it)])


def entries(file, reached):
    """What callers reach of a source: impls of traits, functions of impls, and of the other functions these."""
    for text in re.split(r"(?m)^\n(?=(?:///.*\n|#\[.*\n)*(?:impl|pub fn|fn|pub struct|pub enum|struct|enum)\b)", read(file)):
        if re.search(r"(?m)^impl.* for ", text):
            yield from [] if re.search(r"(?m)^impl.* Model for ", text) else [impl(text)]
        else:
            is_free = not re.search(r"(?m)^impl", text)
            yield from (it for name, it in functions(text) if not is_free or file.name == LAWS or name in reached)


def sources(root, has_laws):
    """The part of the page on the sources, either those of laws or the others, first those of CORE."""
    reached = set(re.findall(r"\w+", re.sub("//.*", "", read(root / TOP / "src/lib.rt"))))
    crates = (BASE, CORE, TOP) if has_laws else (CORE, BASE, TOP)
    for file in (file for it in crates for file in sorted((root / it).glob("src/**/*.rt"), key=lambda it: it.with_suffix(""))):
        found = list(entries(file, reached)) if (file.name == LAWS) == has_laws else []
        if found:
            top = re.match(r"(?://!.*\n)+", read(file))[0]
            yield f"\n### {file.relative_to(root)}\n\n{sentence(top)}\n\n```rust\n" + "\n\n".join(found) + "\n```\n"


class Reader:
    """The modules of specs/ and proofs/, as callers of `arraystring` name them."""

    def __init__(self, root):
        self.root, self.tree = root, Modules(root)
        self.rules = [it for it in self.tree.items if it.path.as_posix() == f"{TOP}/proofs/Rules.antt"]
        for it in self.rules:
            it.laws = re.findall(NAME, " ".join(it.lines).partition("=")[2])

    def modules(self, folder):
        """The files of the modules that callers may name, by the names of the modules. What CORE passes on may be of BASE."""
        found = re.findall(r"(?m)^pub (?:mod|use Rattle\.(\w+)\.\w+\.)\s*(\w+)$", read(self.root / TOP / folder / "Lib.antt"))
        places = {name: (self.root / f"crates/{other}" if other else self.root / TOP, self.root / BASE) for other, name in found if name != "Rules"}
        files = {name: [it / folder / f"{name}.antt" for it in crates] for name, crates in places.items()}
        return {name: next(it for it in several if it.exists()) for name, several in files.items()}

    def items(self, file):
        """The public items of a module, those that it has from another first, by the names that they have here; None stands for
        what no module of the repository defines."""
        names = self.tree.modules[module_of(file.relative_to(self.root))]
        passed = re.findall(r"(?m)^(?:unfoldable )?pub use [^{;]*\{([^}]*)\}", read(file))
        own = {it.name: it for it in self.tree.items if self.root / it.path == file and "pub " in it.lines[0]}
        passed = [re.findall(NAME, piece)[-1] for it in passed for piece in it.split(",") if piece.strip()]
        return {word: self.tree.resolved(names, word) for word in passed} | own

    def text(self, item):
        """The lines of an item, as they stand in its file."""
        return "\n".join(read(self.root / item.path).split("\n")[item.number - 1 :]).split("\n\n")[0].rstrip().split("\n")

    def told(self, items, is_law):
        """Items under the blocks that are around them, each with its comment; of a law its statement, and the rulesets that have it."""
        around, lines = [], []
        for item in items:
            lines += ["", *(line for block in item.around if block not in around for line in block.lines)]
            around, sets = item.around, [it.name for it in self.rules if is_law and item.name in it.laws]
            comment = f"{item.comment} (in {', '.join(sets)})" if sets else item.comment
            text = self.text(item)
            lines += [*wrapped(comment.strip(), "--", "  " * len(around)), *(statement(item.name, text) if is_law else text)]
        return "\n".join(re.sub(r"^(\s*)(?:abbrev |unfoldable )?pub ", r"\1", it) for it in lines[1:])

    def part(self, folder, is_law):
        """The part of the page on the modules of a folder."""
        modules = self.modules(folder)
        for name, file in modules.items():
            items, others = self.items(file), {*modules.values()} - {file}
            elsewhere = [word for word, it in items.items() if not it or it.name != word or self.root / it.path in others]
            also = listed("It also has", elsewhere)[2:] if elsewhere else ""
            told = self.told([it for word, it in items.items() if word not in elsewhere], is_law)
            comment = sentence(re.match(r"(?:--.*\n)*", read(file))[0])
            yield f"\n### Rattle.arraystring.{folder}.{name}\n\n{comment}\n{also}" + (f"\n```antt\n{told}\n```\n" if told else "")


def statement(name, lines):
    """The lines of a law up to its proof."""
    ends = (number for number, line in enumerate(lines) if number and line.split()[0] in (name, "unfolding"))
    return lines[: next(ends, len(lines))]


def words_of_std(root, page, forms, best):
    """By the modules of other libraries the words that statements of a page name, as some files of the crates import them."""
    found = {}
    for file in sorted(it for form in forms for crate in (BASE, CORE, TOP) for it in root.glob(f"{crate}/{form}")):
        for module, words, _ in IMPORT.findall(read(file)):
            is_other = not module.startswith("Rattle.arraystring") and " as " not in words
            for word in re.findall(r"[^\s,{}]+", words) if is_other else ():
                found.setdefault(word, set()).add(module)
    named, modules = set(re.findall(NAME, re.sub(r"(?m)^ *(?:pub |fn |impl|///|--).*$|\w+: ", " ", page))), {}
    for word in sorted(found):
        if word in named and "◌" not in word:
            modules.setdefault(best if best in found[word] else min(found[word], key=lambda it: (len(it), it)), []).append(word)
    return "".join(listed(f"`{module}`:", words) for module, words in sorted(modules.items()))


def made(root):
    """The page, as the sources make it."""
    reader = Reader(root)
    calls, called = "".join(sources(root, False)), "".join(sources(root, True))
    rules = "".join(listed(f"`{it.name}`: {it.comment}. It has", it.laws) for it in reader.rules)
    laws, words = "".join(reader.part("proofs", True)), "".join(reader.part("specs", False))
    contracts = words_of_std(root, calls + called + words, ("src/**/*.rt", "specs/*.antt"), "Rattle.std.specs.Prelude")
    proofs = words_of_std(root, laws, ["proofs/*.antt"], "Rattle.std.proofs.Common")
    return f"""{HEAD}
## Calls
{calls}
## Laws that a body calls

Code imports them from `arraystring::laws`.
{called}
## Rulesets

An attribute cites them from `arraystring::proofs::Rules`.

{rules}
## Laws that an answer cites
{laws}
## Words of contracts
{words}
## Words of std

A contract imports them so, and the operators from `Prelude`:

{contracts}
A proof imports them so, and the operators from `Common`:

{proofs}"""


def passed_on(root):
    """The files of the modules that pass on the definitions of another module, for their old names, each with all of these."""
    tree = Modules(root)
    for file in sorted((root / TOP / "specs").glob("*.antt")):
        text = read(file)
        of = re.match("-- This module exports the definitions of `(.*?)`", text)
        items = [it for it in tree.names_in(f"Rattle.{of[1]}").values() if isinstance(it, Item) and "pub " in it.lines[0]] if of else []
        lacking = dict.fromkeys(it.name for it in items if it.name not in re.findall(NAME, text))
        yield file, text.replace("}", "".join(f", {it}" for it in lacking) + "}", 1)


def main(arguments, root):
    if arguments == ["--write"]:
        for file, text in passed_on(root):
            file.write_text(text, encoding="utf-8")
    text, page = made(root), root / PAGE
    if arguments == ["--write"]:
        page.write_text(text, encoding="utf-8")
    short = next((file for file, whole in passed_on(root) if read(file) != whole), None)
    if short:
        return f"{short.relative_to(root)} lacks a definition of the module that it passes on; tools/run reference --write adds it\n"
    if not page.exists() or read(page) != text:
        had = read(page).split("\n") if page.exists() else []
        first = next((it for it, other in zip_longest(text.split("\n"), had) if it != other), None)
        return f"{PAGE} is not what the sources make, which is {first}; tools/run reference --write makes it\n"
    print(f"{PAGE} is as the sources are")
    return False
