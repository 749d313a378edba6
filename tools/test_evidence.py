"""Which functions a wrong body is asked for, how it is named, what it touches, and what has to refuse it."""
import evidence
from edits import MORE
from planted import TreeTest

SOURCE = """\
pub struct Number {
    value: u8,
}

impl Number {
    pub fn doubled(&self) -> u8
        ensures { result ≡ 2 * self.now.value }
    {
        twice(self.value)
    }
}

impl Default for Number {
    ghost value = { 0 };
    fn default() -> Number {
        Number { value: 0 }
    }
}

fn twice(value: u8) -> u8 {
    value + value
}
"""
ONCE, IS_ONE = "file: src/lib.rt\nold:     value + value\nnew:     value + 0\n", "Number { value: 1 }"
FOLDER, END = "crates/numbers/must-fail", r"\Z"
FILE, OTHER, PROGRAM = "crates/numbers/src/lib.rt", "crates/numbers/src/other.rt", "crates/program/src/main.rt"
UNASKED = ("test_support", "memory_tests", "arraystring_uses", "arraystring_recipes", "bounded_records_uses")
MISSING, NO_NAME = "wrong bodies of {} that are missing: {}\n".format, "numbers {}: no public function has this name\n".format
SHOWN = """\
impl {0} for Number {{
    ghost output = {{ 0 }};
    fn fmt() {{
        {0}
    }}
}}
"""


class Evidence(TreeTest):
    FILES = {
        "crates.txt": "".join(f"{it}:\n" for it in ("# numbers", "numbers", "program", *UNASKED)),
        FILE: SOURCE,
        "crates/numbers/src/tests.rt": "pub fn tried() {\n    1\n}\n",
        f"{FOLDER}/doubled.is_once.edit": ONCE,
        f"{FOLDER}/default.is_one.edit": f"file: src/lib.rt\nold:         Number {{ value: 0 }}\nnew:         {IS_ONE}\n",
        PROGRAM: "fn main() {\n    1\n}\n",
        **{f"crates/{it}/src/lib.rt": "pub fn unasked() {\n    1\n}\n" for it in UNASKED},
    }

    def renamed(self, name, other):
        return (f"{FOLDER}/{name}.edit", None), (f"{FOLDER}/{other}.edit", self.FILES[f"{FOLDER}/{name}.edit"])

    def test_a_wrong_body_of_its_name_touches_the_function_or_what_it_names(self):
        self.assertEqual(self.told(evidence), (False, "2 functions have 2 wrong bodies\n"))

    def test_a_function_or_an_impl_without_one_is_named(self):
        private = "pub fn other() {{\n    {}\n}}\n".format
        self.assert_finds(
            evidence,
            (MISSING("numbers doubled", 1), (f"{FOLDER}/doubled.is_once.edit", None)),
            (MISSING("numbers default", 1), (f"{FOLDER}/default.is_one.edit", None)),
            (MISSING("numbers other", 1), (OTHER, private(1))),
            ("", (OTHER, private(1).replace("pub ", ""))),
            ("", (OTHER, private(1).replace("pub ", "pub(crate) "))),
            ("", (OTHER, "pub trait Shown {\n    fn shown(&self) {\n        1\n    }\n}\n")),
            ("", (OTHER, "impl Debug for Number {\n    fn fmt() {\n        1\n    }\n}\n")),
            ("", (OTHER, SHOWN.format("Debug").replace("Number", "Hidden"))),
            (MISSING("numbers fmt", 1), (OTHER, SHOWN.format("Debug"))),
            # (`==` by hand)
            (MISSING("numbers eq", 2), (OTHER, "impl PartialEq for Number {\n    ghost eq = { true };\n"
                                               "    fn eq(&self) -> bool {\n        true\n    }\n}\n")),
            # (of a program all but `main`)
            (MISSING("program print", 1), (PROGRAM, END, "\nfn print() {\n    1\n}\n")),
        )

    def test_what_only_tests_call_and_an_example_need_none(self):
        """The wrong bodies of what only tests call have any name."""
        self.assert_finds(
            evidence,
            ("", ("crates/test_support/must-fail/any.edit", "file: src/lib.rt\nold:     1\nnew:     0\n")),
            ("arraystring_uses any: no public function has this name\n",
             ("crates/arraystring_uses/must-fail/any.edit", "file: src/lib.rt\nold:     1\nnew:     0\n")),
            (NO_NAME("any"), (f"{FOLDER}/any.edit", ONCE)),
        )

    def test_no_function_is_a_fault(self):
        with self.changed(*((it, None) for it in self.FILES if it.startswith("crates/numbers/"))):
            self.assertEqual(self.told(evidence), (True, "0 functions have 0 wrong bodies\n"))

    def test_one_that_only_calls_its_counted_form_needs_none(self):
        counted = "\npub fn {}_counted(value: u8) -> u8 {{\n    value\n}}\n".format
        plain = "pub fn thrice(value: u8) -> u8 {{\n    {}\n}}\n".format
        edit = (f"{FOLDER}/thrice_counted.is_one.edit", "file: src/other.rt\nold:     value\nnew:     1\n")
        both = plain("thrice_counted(value)") + counted("thrice")
        self.assert_finds(
            evidence,
            (MISSING("numbers thrice_counted", 1), (OTHER, both)),
            (MISSING("numbers thrice", 1), (OTHER, plain("let it = 1;\n    thrice_counted(it)") + counted("thrice")), edit),
            (MISSING("numbers thrice", 1), (OTHER, plain("if true { thrice_counted(1) } else { 0 }") + counted("thrice")), edit),
            (MISSING("numbers thrice", 1), (OTHER, plain("twice_counted(value)") + counted("thrice")), edit),
        )
        with self.changed((OTHER, both), edit):
            self.assertEqual(self.told(evidence), (False, "4 functions have 3 wrong bodies\n"))

    def test_a_name_belongs_to_a_public_function_that_the_edit_touches(self):
        self.assert_finds(evidence, *((NO_NAME(it), *self.renamed("doubled.is_once", it)) for it in (
            "twice.is_once", "tripled.is_once", "is_once", "doubled_is_once")))
        self.assert_finds(
            evidence,
            ("numbers doubled.is_once: src/lib.rt does not have this once: three", (f"{FOLDER}/doubled.is_once.edit",
                                                                                    "file: src/lib.rt\nold: three\nnew: 3\n")),
            ("numbers doubled.is_once: no line of a wrong body: what: 1", (f"{FOLDER}/doubled.is_once.edit", END, "what: 1\n")),
        )

    def test_those_of_the_file_count_and_have_to_fit(self):
        here, there = f"{FOLDER}/doubled.is_once.edit", f"crates/numbers/{MORE}"
        page = f"# Wrong bodies.\n\n## doubled\n\n### is_once\n{ONCE}"
        self.assert_finds(
            evidence,
            ("", (here, None), (there, page)),
            ("numbers doubled.is_once: src/lib.rt does not have this once:     value + value\n",
             (here, None), (there, page), (FILE, r"    value \+ value", "    2 * value")),
            ("numbers doubled.is_once: src/lib.rt does not have this once: three", (here, None), (there, page.replace("    value + value", "three"))),
            (MISSING("numbers doubled", 1), (here, None), (there, page.partition("\n##")[0])),
            ("numbers doubled.: no wrong body stands here", (here, None), (there, page.partition("\n###")[0])),
            ("numbers doubled.is_once: no line of a wrong body: what: 1", (here, None), (there, f"{page}what: 1\n")),
        )

    def test_a_heading_is_the_name_of_a_function(self):
        there, page = f"crates/numbers/{MORE}", f"\n## doubled\n\n### is_two\n{ONCE}".replace
        # (`Number.doubled` is a name of the function too, but not the shortest; a part of a name in front is none)
        self.assert_finds(evidence, ("", (there, page("", "").partition("\n##")[0])), *(
            (NO_NAME(f"{it}.is_two"), (there, page("doubled", it))) for it in ("tripled", "twice", "double", "Number.doubled", "doubled.more")))
        self.assert_finds(
            evidence,
            (NO_NAME("tripled."), (there, page("doubled", "tripled").partition("\n###")[0])),
            (NO_NAME(f"above all headings of {MORE}"), (there, page("## doubled\n", ""))),
            (NO_NAME(f"above all headings of {MORE}"), (there, ONCE + page("", ""))),
        )

    def test_a_name_is_given_once(self):
        there, page = f"crates/numbers/{MORE}", f"\n## doubled\n\n### is_once\n{ONCE}"
        twice = "numbers doubled.is_once: another wrong body has this name\n"
        self.assert_finds(evidence, (twice, (there, page)), (twice, (f"{FOLDER}/doubled.is_once.edit", None), (there, page + page)))
        with self.changed((there, page.replace("is_once", "is_two"))):
            self.assertEqual(self.told(evidence), (False, "2 functions have 3 wrong bodies\n"))

    def test_the_type_and_the_trait_tell_equal_names_apart(self):
        letter = SOURCE.replace("Number", "Letter").partition("\nfn twice")[0]
        self.write("crates/numbers/src/letter.rt", letter)
        said = self.told(evidence)[1]
        self.assertIn(NO_NAME("doubled.is_once"), said)
        self.assertIn(MISSING("numbers Number.doubled", 1), said)
        edit = "file: src/letter.rt\nold:         Letter { value: 0 }\nnew:         Letter { value: 1 }\n"
        self.write(f"{FOLDER}/Letter.default.is_one.edit", edit)
        self.write(f"{FOLDER}/Letter.doubled.is_one.edit", "file: src/letter.rt\nold: twice(self.value)\nnew: 1\n")
        with self.changed(*self.renamed("doubled.is_once", "Number.doubled.is_once"),
                          *self.renamed("default.is_one", "Number.default.is_one")):
            self.assertEqual(self.told(evidence), (False, "4 functions have 4 wrong bodies\n"))
            with self.changed((OTHER, f"{SHOWN.format('Debug')}\n{SHOWN.format('Display')}")):
                said = self.told(evidence)[1]
        self.assertEqual(said, MISSING("numbers Number.Debug", 1) + MISSING("numbers Number.Display", 1))

    def test_what_decides_has_one_for_each_direction(self):
        more = [(f"{FOLDER}/doubled.is_{it}.edit", ONCE.replace("+ 0", f"+ {it}")) for it in range(7, 11)]
        for decides in ((FILE, r"pub fn doubled\(&self\) -> u8$", "pub fn doubled(&self) -> bool"),
                        (FILE, "result ≡ 2", "(result ≡ 0) ↔ 2")):
            with self.subTest(decides), self.changed(decides):
                self.assertEqual(self.told(evidence), (True, MISSING("numbers doubled", 1)))
                for count in range(1, len(more) + 1):
                    with self.changed(*more[:count]):
                        self.assertEqual(self.told(evidence), (False, f"2 functions have {2 + count} wrong bodies\n"))
                with self.changed((f"{FOLDER}/doubled.is_once.edit", None)):
                    self.assertEqual(self.told(evidence), (True, MISSING("numbers doubled", 2)))

COUNTED = """\
pub fn counted(steps: &mut Steps)
    ensures moved { steps.new.moved ≤ 4 }
{
    move_all(steps)
}

pub fn plain()
    ensures { result ≡ 0 }
{
    move_all(&mut Steps::new())
}

fn move_all(steps: &mut Steps)
    ensures moved { steps.new.moved ≤ 4 }
    ensures text { result ≡ 0 }
{
    0
}

#[inline]
#[cold]
pub fn other()
    ensures { result ≡ 1 }
{
    1
}
"""
GOAL = "note: src/lib.rt:{}:1: it is not proved that what the function ensures holds when it returns (`{}`); `search` gave up"
STORED = "./proofs/{}/Answers.antt:12:4: error: `returns-clause-text`: {}"
MOVES = "crates/moves/must-fail"
# Refuses what has no `0` in it.
RT = f"""#!/bin/sh
[ "$1" = must-fail ] || exit 9
shift
for crate; do
    for it in crates/$crate/must-fail/*.edit; do
        told='refused, as it must be: {GOAL.format(13, "returns-clause-text")}'
        ! grep -q 'new:.*0' "$it" || told='NOT REFUSED'
        printf '%s\\n' "rt: must-fail $crate/${{it##*/}}: $told"
    done
done
"""


class Refusals(TreeTest):
    FILES = {
        "crates.txt": "moves:\n",
        "crates/moves/src/lib.rt": COUNTED,
        f"{MOVES}/counted.is_one.edit": "file: src/lib.rt\nold:     0\nnew:     1\n",
        f"{MOVES}/plain.is_one.edit": "file: src/lib.rt\nold:     0\nnew:     1\n",
        f"{MOVES}/other.is_zero.edit": "file: src/lib.rt\nold:     1\nnew:     0\n",
    }
    TOLD = {"counted.is_one": GOAL.format(13, "returns-clause-moved"), "plain.is_one": GOAL.format(13, "returns-clause-text"),
            "other.is_zero": GOAL.format(22, "returns")}

    def told_of(self, name="", said=""):
        """Whether it fails over a log in which one verdict is another, and what it says."""
        told = {**self.TOLD, **({name: said} if name else {})}
        lines = [f"rt: must-fail moves/{it}.edit: refused, as it must be: {text}" for it, text in told.items() if text]
        self.write("log", "\n".join(["checked moves", *lines, "3 passed, 0 failed"]))
        return self.told(evidence, str(self.root / "log"))

    def assert_named(self, wanted, name, said):
        self.assertEqual(self.told_of(name, said), (True, f"moves {name}: {wanted}\n"))

    def test_each_is_refused_where_it_is_named_for(self):
        """At each line of its function, from the first attribute on, and of what that names; and at no other line."""
        self.assertEqual(self.told_of(), (False, "3 functions have 3 wrong bodies\n"))
        moved = [*range(13, 19)]
        for name, clause, lines in (("counted.is_one", "returns-clause-moved", [*range(1, 6), *moved]),
                                    ("plain.is_one", "returns-clause-text", [*range(7, 12), *moved]),
                                    ("other.is_zero", "returns", [*range(20, 27)])):
            for line in range(1, 28):
                fault = f"moves {name}: refused at src/lib.rt:{line}, where nothing is that it is named for\n"
                told = (False, "3 functions have 3 wrong bodies\n") if line in lines else (True, fault)
                self.assertEqual(self.told_of(name, GOAL.format(line, clause)), told, line)

    def test_one_that_the_log_lacks_is_named(self):
        lacking = "the log does not say that it is refused"
        self.assert_named(lacking, "other.is_zero", "")
        # (what is said of another crate, and another verdict)
        for line in ("moves_more/other.is_zero.edit: refused, as it must be: no", "moves/other.is_zero.edit: NOT REFUSED"):
            self.write("log", f"rt: must-fail {line}\n")
            self.assertIn(f"moves other.is_zero: {lacking}", self.told(evidence, str(self.root / "log"))[1])

    def test_counts_refuse_nothing_of_what_does_not_count(self):
        by_counts = GOAL.format(13, "returns-then-zero-clause-moved")
        self.assert_named("refused by counts, of which plain is not", "plain.is_one", by_counts)
        self.assertFalse(self.told_of("counted.is_one", by_counts)[0])

    def test_a_stored_proof_refuses_where_there_is_a_control_or_values_are_shown(self):
        said = STORED.format("move_all", "expected another")
        self.assert_named("refused over a stored proof, and has no control", "plain.is_one", said)
        self.assertFalse(self.told_of("plain.is_one", STORED.format("move_all", f"`omega`: {evidence.VALUES} that holds, a"))[0])
        with self.changed((f"{MOVES}/plain.is_one.edit", END, "# right:     { 0 }\n")):
            self.assertFalse(self.told_of("plain.is_one", said)[0])
            for name in ("other", "counted"):
                self.assertIn("refused neither by a goal of src/ nor over a stored proof",
                              self.told_of("plain.is_one", STORED.format(name, "expected another"))[1])
            self.assertIn("refused neither by a goal", self.told_of("plain.is_one", "the machine stopped")[1])

    def test_those_of_the_file_are_tried_in_a_copy_and_in_no_log(self):
        self.stand_in_for_rt(RT)
        path, source = f"crates/moves/{MORE}", "crates/moves/src/lib.rt"
        page = "\n## plain\n\n### is_two\nfile: src/lib.rt\nold:     0\nnew:     2\n"
        self.write(path, page)
        self.assertEqual(self.told_of(), (False, "3 functions have 4 wrong bodies\n"))
        for words in (["--more"], ["--more", "moves"]):
            is_bad, said = self.told(evidence, *words)
            self.assertEqual((is_bad, said.splitlines()[1:]), (False, ["each is refused as it has to be"]))
            self.assert_finds(
                evidence,
                ("moves plain.is_two: the log does not say that it is refused", (path, "2", "0 + 0")),
                ("moves plain.is_two: no line of a wrong body: right: 0", (path, END, "right: 0\n")),
                ("moves plain.is_two: refused at src/lib.rt:13, where nothing is", (source, "^fn move", "fn f() {\n    9\n}\n\n\n\n\n\nfn move")),
                ("", (path, "new:     2", "new:\n    2")),
                words=words)
        self.assertEqual(self.told(evidence, "--more", "none"), (True, f"no wrong bodies are in crates/none/{MORE}"))
        self.assertTrue((self.root / path).exists() and (self.root / MOVES / "plain.is_one.edit").exists())
