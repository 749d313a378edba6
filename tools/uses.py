"""Fails at what nobody uses, and where others use what is for the core alone.

It alone sees, for example, a public call that no test makes, a lemma that is proved and that no proof cites, or a word of
`arraystring/specs` that names `spare`.

- Each public call of `ArrayString` is made by a test of TESTS, and each law that a body calls is called by one. A test makes a
  call, or has it in the second column of a row. A comment is no test, nor are the files that make the calls of a table.
- Each command of a script stands on the page of commands.
- Each lemma of a file of proofs/ that callers can't cite is named by a source or a proof. `rt` proves each, also one that nothing names. A
  page or an example that names it is no use of it, nor is the folder of a function searched for lemmas.
- Only CORE names `spare`, what lies around the text of a string: no other crate does, in src/, specs/ or proofs/, examples among them.
"""
import re
from collections import Counter

from modules import Modules, for_callers
from repository import EXAMPLES, NAME, REFERENCE, crates, inline_code, proof_files, read, words_of

CORE = "arraystring_core"
# Which make the calls of tables.
MAKERS = ("call_list.rt", "calls.rt")
TESTS = ("crates/arraystring_tests/src/tests", "crates/arraystring_types_tests/src")
SCRIPTS = "crates/arraystring_run/CALLING.md"


def names_in(root, form, *files):
    """What a form finds in some files, with the file of each."""
    return {name: path.relative_to(root) for it in files for path in sorted(root.glob(it)) for name in re.findall(form, read(path))}


def tested(root):
    """What tests call, and what stands in the second columns of their rows."""
    files = [it for folder in TESTS for it in sorted((root / folder).glob("*.rt")) if it.name not in MAKERS]
    tests = re.sub("//.*", "", "".join(map(read, files)))
    columns = " ".join(line.split("|")[1] for line in tests.splitlines() if line.count("|") > 1)
    return {*re.findall(r"(?<!fn )\b(\w+)(?:::<[^()\n]*>)?\(", tests), *re.findall(r"\w+", columns)}


def faults_of_lemmas(root, lemmas, words):
    """The lemmas that callers can't cite, and that neither their own file nor one that names their module names. `words` has those of each
    file."""
    for_all = {name for crate in crates(root) if (root / "crates" / crate / REFERENCE).is_file() for name in for_callers(root, crate)}
    for lemma in lemmas:
        name, module, own = lemma.name, lemma.path.stem, words[root / lemma.path]
        is_named = own[name] > re.findall(NAME, "\n".join(lemma.lines)).count(name)
        if name not in for_all and not is_named and not any(module in it and name in it for it in words.values() if it is not own):
            yield f"{lemma.path}: nothing names {name}"


def main(arguments, root):
    calls = names_in(root, r"(?m)^    pub (?:const )?fn (\w+)", "crates/arraystring_core/src/array_string*.rt",
                     "crates/arraystring_core/src/array_string/*.rt", "crates/arraystring_core/src/integration.rt")
    laws = names_in(root, r"(?m)^pub fn (\w+)", *(f"crates/{it}/src/laws.rt" for it in ("arraystring_base", "arraystring_core", "arraystring")))
    commands = names_in(root, r'"(\w+)"(?= =>| \|| if)', "crates/arraystring_run/src/line.rt")
    rows = set(re.findall(r"\w+", " ".join(inline_code(read(root / SCRIPTS)))))
    faults = [f"{path}: {name} does not stand in {place}"
              for names, place, has in ((calls | laws, " or ".join(TESTS), tested(root)), (commands, SCRIPTS, rows))
              for name, path in names.items() if name not in has]
    folders = [root / "crates" / it for it in crates(root)]
    files = [file for it in folders for file in [*it.glob("src/**/*.rt"), *it.glob("specs/**/*.antt"), *proof_files(it)]]
    examples = [file for it in folders for file in sorted(it.glob(f"{EXAMPLES}/*.antt"))]
    lemmas = [it for it in Modules(root).items if it.path.match("crates/*/proofs/*.antt")]
    faults += faults_of_lemmas(root, lemmas, {it: Counter(words_of(it)) for it in files})
    others = [it for it in (*files, *examples) if not it.is_relative_to(root / "crates" / CORE)]
    faults += [f"{it.relative_to(root)} names spare, as {CORE} alone may" for it in others if "spare" in words_of(it)]
    print("\n".join(faults) or f"{len(calls)} calls and {len(laws)} laws have a test, {len(commands)} commands a row, and "
          f"{len(lemmas)} lemmas and laws are named or for callers")
    return bool(faults) or not (calls and laws and commands and lemmas)
