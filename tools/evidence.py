"""Fails where a public function or impl has no wrong body of its name, and where something else than a goal refused one.

It alone sees, for example, that a new public call has no wrong body, or that what refused one of `encode` is a goal of another function, or
a clause about counts. `rt ci` asks for no wrong body, and does not look at where one was refused.

tools/run evidence           looks at the files alone, also whether each wrong body can be put into its crate
tools/run evidence LOG       also at what `rt ci` said in LOG of each wrong body in must-fail/
tools/run evidence --more [CRATE..]
                             at what `rt must-fail` says of those in more-wrong-bodies.edits, in a copy where they are in
                             must-fail/; before a release, and of a crate whose public contract was changed

A wrong body is FUNCTION.WHAT_IS_WRONG.edit in must-fail/ of its crate, or stands in the crate's file below the headings
`## FUNCTION` and `### WHAT_IS_WRONG` (the head of tools/edits.py says how). No two have one name. FUNCTION is the name of a
function of the crate, as `pop`. It has the type in front if two have that name, as `Drain.next_back`, and the trait in the
function's place if that does not tell them apart, as `Error.Display` and `Error.From.Utf8`. What breaks in a private function
is named for a public one that names it, directly or by others.

Every public function that has a body is asked for, each function of a trait's impl that has clauses or ghost members and
whose type is public, and of a program all functions but `main`; tests, what a trait declares, the crates FOR_TESTS and the
EXAMPLES are not. Two are asked for where a function decides something, so that its contract has an equivalence or it returns
a `bool`: one for each direction. None is asked for a function that only calls the one of its name with `_counted`.

So one is asked for where `==` of a public type is by hand and was derived: `rt` wants ghost members there, which say what it
compares. If it were true of all values, a test that compares by `==` would say nothing.

In the log each wrong body is refused by a goal of src/ in the function of its name or in one that this names, or over a stored
proof of such a one. Then it has a control, or the prover shows values at which the goal is false. A goal of a clause about
counts refuses only what is named for a function that counts.
"""
import re
import shutil
from collections import Counter, namedtuple
from pathlib import Path

import controls
from edits import MORE, of_file, wrong_bodies
from repository import closed, crates, public_types, read, sources

# Only tests call test_support, and memory_tests is one: what is wrong there its own tests and theirs see, or `tools/run refused`. Nothing
# calls bench_calls but the bench, which compares each answer with those of other strings.
FOR_TESTS = {"test_support", "memory_tests", "bench_calls"}
# Callers that pages quote. What a call that they make can do wrong, its own crate shows.
EXAMPLES = {"arraystring_uses", "arraystring_recipes", "bounded_records_uses"}
# They borrow what they speak of, or call it, so that the prover has the fact. Without that they are as true.
LAWS_THAT_BORROW = {"text_fits", "utf8_decodes_to_text", "drain_text_fits", "keys_ascend"}
# What the prover says before the values at which a goal is false; the log cuts it off somewhere behind.
VALUES = "the goal does not follow from what it read. All of"
# (what is refused only because a name is gone is told in other words, and is no evidence)
VERDICT = re.compile(r"must-fail (\w+)/(\S+)\.edit: refused, as it must be: (.*)")
ITEM = re.compile(r"( *)(pub |pub\(\w+\) )?(?:const |unsafe )*(?:fn (\w+)|(impl|trait)\b(.*) \{$)")


class Function(namedtuple("Function", "name kind trait is_asked place header body words")):
    """A function of a source file: its type and trait, whether a wrong body is asked for, the lines of it or of the impl of a
    trait that it is in, what stands before its body, the lines of that and their words."""

    def decides(self):
        """Whether the clauses have an equivalence, or it returns a `bool`."""
        return "↔" in self.header or bool(re.search(r"(?m)\) -> bool( \{)?$", self.header))

    def hands_on_to(self, name):
        """Whether all that it does is one call of another function."""
        return bool(re.fullmatch(rf" *(self\.)?{name}\([^{{}}\n]*\)", "\n".join(self.body)))

    def names(self):
        """By what the function can be called, the shortest first: `next`, `Drain.next`, `Drain.Iterator`, `Error.From.Utf8`."""
        trait = re.findall(r"\w+", re.sub(r"^(\w+::)+", "", self.trait))
        yield self.name
        yield from [f"{self.kind}.{self.name}"] * bool(self.kind)
        yield from [f"{self.kind}.{it}" for it in (*trait[:1], ".".join(trait)) if it]


def functions_of(text, is_program=False, public=frozenset()):
    """The functions of a source file, which is laid out as `rt fmt` does; those of a trait's impl are asked about if its type is
    among the public ones."""
    found, lines, kind, trait, block = [], text.split("\n"), "", "", ""
    for at, line in enumerate(lines):
        item = ITEM.match(line)
        if not item or item[1] and block == "trait":
            continue
        indent, visibility, name = item[1], item[2], item[3]
        ends = (line if line.endswith("}") else "", f"{indent}}}", f"{indent}{{}}")
        last = next(i for i in range(at, len(lines)) if lines[i] and lines[i] in ends)
        if not name:
            trait, _, kind = re.sub(r"^<(?:[^<>]|<[^<>]*>)*>", "", item[5]).strip().rpartition(" for ")
            kind, trait = re.search(r"\w+", kind)[0], re.sub(r"'\w+ ", "", trait)
            block, of_impl = item[4], range(at, last + 1)
            has_contract = re.search(r"(?m)^ *(ghost (?!use )|ensures )", "\n".join(lines[at:last]))
            continue
        first = next((i + 1 for i in range(at, last) if re.fullmatch(rf"{indent}(\S.* )?\{{", lines[i])), last)
        header, body = "\n".join(lines[at:first]), tuple(it for it in lines[first:last] if not it.strip().startswith("//"))
        while lines[at - 1].startswith(f"{indent}#["):
            at -= 1
        if indent and trait:
            is_seen, place = kind in public and has_contract, of_impl
        else:
            is_seen, place = visibility == "pub " or is_program and name != "main", range(at, last + 1)
        owner, words = (kind, trait) if indent else ("", ""), frozenset(word for it in body for word in re.findall(r"\w+", it))
        found.append(Function(name, *owner, bool(body and is_seen), place, header, body, words))
    return found


class Crate:
    """A crate: its wrong bodies, its functions by their files and together, and those by name for which one is asked."""

    def __init__(self, folder):
        self.folder, self.edits, files = folder, wrong_bodies(folder), sources(folder)
        public = frozenset(public_types(files))
        self.functions = {it: functions_of(read(it), it.name == "main.rt", public) for it in files}
        self.everything = [it for of_file in self.functions.values() for it in of_file]
        asked = [it for it in self.everything if it.is_asked]
        counts = Counter(name for it in asked for name in set(it.names()))
        # (by the shortest name that each has alone)
        self.asked = {next(name for name in it.names() if counts[name] == 1): it for it in asked}

    def owner(self, edit):
        """The name of the function for which a wrong body is named; None where there is none."""
        names = self.asked if edit.heading is None else self.asked.keys() & {edit.heading}
        return next((it for it in names if edit.name.startswith(f"{it}.")), None)

    def lacking(self):
        """How many wrong bodies of a function are missing, by its name, for each for which they are asked."""
        tried = Counter(map(self.owner, self.edits))
        for name, function in self.asked.items():
            if name not in LAWS_THAT_BORROW:
                is_tried = tried[name] or tried[f"{name}_counted"] and function.hands_on_to(f"{name}_counted")
                yield name, max(0, 2 - tried[name]) if function.decides() else int(not is_tried)

    def fault_of_refusal(self, edit, said):
        """What is wrong with the refusal of a wrong body; None where nothing is."""
        name = self.owner(edit)
        rests_on = closed([self.asked[name]] if name else [], lambda one: [it for it in self.everything if it.name in one.words])
        place = re.search(r"\b(src/\S+?):(\d+):\d+: .*?(?:\(`(?:\S+-)?clause-(\w+)`\)|$)", said)
        if place:
            of_file = self.functions.get(self.folder / place[1], [])
            at = [it for it in of_file if int(place[2]) - 1 in it.place and it in rests_on]
            if not at:
                return f"refused at {place[1]}:{place[2]}, where nothing is that it is named for"
            counts = rf"(?s)\bensures {place[3]} \{{(?:(?!\n *(?:ensures|requires|where|ghost)\b).)*steps\."
            is_by_counts = re.search(counts, at[0].header) and "steps: &mut Steps" not in self.asked[name].header
            return f"refused by counts, of which {name} is not" if is_by_counts else None
        stored = re.search(r"\bproofs/(?:\w+/)*(\w+)/\w+\.antt", said)
        if not stored or not any(it.name == stored[1] for it in rests_on):
            return f"refused neither by a goal of src/ nor over a stored proof of what it is named for: {said[:100]}"
        return None if VALUES in said or edit.has_control() else "refused over a stored proof, and has no control"


def fault_of_text(edit):
    """Why a wrong body or its control can't be put into its crate; None where both can."""
    try:
        edit.applied(is_right=False)
        edit.applied(is_right=True)
    except ValueError as error:
        return str(error)
    return None


def faults_of(crate, log="", tried=()):
    """What is wrong with the wrong bodies of a crate, and with the refusals of those that were tried, as a log has them."""
    told = {name: said for folder, name, said in VERDICT.findall(log) if folder == crate.folder.name}
    counts = Counter(it.name for it in crate.edits)
    for edit in crate.edits:
        fault = fault_of_text(edit)
        if crate.folder.name not in FOR_TESTS and not crate.owner(edit):
            fault = "no public function has this name"
        elif counts[edit.name] > 1:
            fault = "another wrong body has this name"
        elif not fault and edit in tried:
            said = told.get(edit.name)
            fault = crate.fault_of_refusal(edit, said) if said else "the log does not say that it is refused"
        yield from [f"{crate.folder.name} {edit.name}: {fault}"] * bool(fault)


def put_into_must_fail(folder):
    """Makes those in a crate's file that fit the wrong bodies that `rt must-fail` tries."""
    shutil.rmtree(folder / "must-fail", ignore_errors=True)
    (folder / "must-fail").mkdir()
    for edit in of_file(folder):
        if not fault_of_text(edit):
            (folder / "must-fail" / f"{edit.name}.edit").write_text(edit.for_rt(), encoding="utf-8")


def more(root, named):
    """Tries the wrong bodies in the files of some crates: whether one is not refused as it has to be."""
    with controls.copied(root, named) as copy:
        folders = [copy / "crates" / it for it in named]
        for folder in folders:
            put_into_must_fail(folder)
        log = controls.rt(copy, "must-fail", *named).stdout
        for folder in folders:
            shutil.rmtree(folder / "must-fail")
        known = map(Crate, folders)
        faults = [fault for crate in known for fault in faults_of(crate, log, crate.edits)]
    print(log + "\n".join(faults or ["each is refused as it has to be"]))
    return bool(faults)


def main(arguments, root):
    if arguments[:1] == ["--more"]:
        have = [it for it in crates(root) if (root / "crates" / it / MORE).exists()]
        lacking = sorted(set(arguments[1:]).difference(have))
        return f"no wrong bodies are in crates/{lacking[0]}/{MORE}" if lacking else more(root, arguments[1:] or have)
    log = read(Path(arguments[0])) if arguments else ""
    known = [Crate(root / "crates" / it) for it in crates(root)]
    asked = [it for it in known if it.folder.name not in FOR_TESTS | EXAMPLES]
    lacking = {f"{crate.folder.name} {name}": count for crate in asked for name, count in crate.lacking()}
    tried = [it for crate in known for it in crate.edits if arguments and it.heading is None]
    faults = [fault for crate in known for fault in faults_of(crate, log, tried)]
    faults += [f"wrong bodies of {name} that are missing: {count}" for name, count in lacking.items() if count]
    print("\n".join(faults) or f"{len(lacking)} functions have {sum(len(it.edits) for it in asked)} wrong bodies")
    return bool(faults) or not lacking
