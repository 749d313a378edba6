"""Which definitions a contract reaches, what specs/ may hold, and what the page has to have."""
import re
from unittest import mock

import trusted
from planted import TreeTest
from repository import ROOT, crates

WORDS = """\
use Rattle.std.specs.Prelude.{◌≡◌, length}

-- a text is short
abbrev pub IsShort : Text → Type 0
IsShort t = length t < limit

-- how long a short text is
-- at most
abbrev pub limit : ℕ
limit = 3
"""
ROWS = """\
use Rattle.base.specs.Words.{IsShort}

module _ (t : Text) (short : IsShort t) where
  -- what stays of it
  abbrev pub rest_of : Text
  rest_of = drop 1 t
"""
SOURCE = """\
ghost use Rattle.base.specs.Rows.{rest_of};

pub fn run(text: &Text) -> Text
    ensures { result ≡ rest_of text.now }
{
    text.rest()
}
"""
LINE = """\
ghost use Rattle.base.specs.Words.{IsShort};

pub struct Line {
    text: Text,
}

impl Model for Line {
    ghost invariant = { IsShort };
    ghost inverse = { IsLong };
}

pub fn length_of(line: &Line) -> u8
    ensures { result ≡ 1 }
{
    1
}
"""
PAGE = """\
## The table of edits

|Definition|What|Example|Behind it|
|---|---|---|---|
|`IsShort t`|short|`IsShort []`|a law
|`limit`|three|`limit ≡ 3`|
|`rest_of t`|all but one|`rest_of (1 ∷ []) ≡ []`, `rest_of [] ≡ []`|
"""
EXAMPLES = """\
-- of short texts
use Rattle.base.specs.Words.{IsShort, limit}

IsShort-empty : IsShort []
IsShort-empty = omega arith

IsShort-not_of_three : IsShort (1 ∷ 2 ∷ 3 ∷ []) → ⊥
IsShort-not_of_three is = omega arith

limit-is_three : limit ≡ 3
limit-is_three = refl
"""
MORE = """\
use Rattle.base.specs.Rows.{rest_of}

rest_of-each_size : (rest_of [] ≡ []) × (rest_of (1 ∷ []) ≡ [])
    × (rest_of (1 ∷ 2 ∷ []) ≡ 2 ∷ [])
unfolding drop
rest_of-each_size = (refl, refl, refl)
"""
LAWS = "use Rattle.base.specs.Words.{IsShort}\nuse Rattle.base.proofs.Order.{total}\n\n" \
    "pub empty-short : IsShort []\nempty-short = omega arith\n"
LIST, FILE, END = "crates/base/specs/Lib.antt", "crates/base/specs/Words.antt", r"\Z"
OF_WORDS, OF_ROWS = "crates/base/proofs/examples/Words.antt", "crates/base/proofs/examples/Rows.antt"
RUN, USER = "crates/base/src/lib.rt", "crates/user/src/lib.rt"
IN_ORDER = ["IsShort", "limit", "rest_of"]
LIBRARIES, IS_EDIT = list(trusted.LIBRARIES), trusted.is_edit


class Trusted(TreeTest):
    FILES = {
        "crates.txt": "base:\nuser: base\n",
        LIST: "pub mod Words\npub mod Rows\n",
        FILE: WORDS,
        "crates/base/specs/Rows.antt": ROWS,
        "crates/base/proofs/WordLaws.antt": LAWS,
        OF_WORDS: EXAMPLES,
        OF_ROWS: MORE,
        RUN: SOURCE,
        trusted.PAGE: PAGE,
    }

    def setUp(self):
        super().setUp()
        for name, value in (("LIBRARIES", ["base", "user"]), ("is_edit", lambda it: True)):
            patch = mock.patch.object(trusted, name, value)
            patch.start()
            self.addCleanup(patch.stop)

    def reached(self, of_run=False):
        """The names of the definitions that --list tells of all public contracts, or of `run` alone, in order."""
        said = self.told(trusted, "--list")[1].partition("all public contracts: " if of_run else "all of specs/: ")[0]
        return re.findall(r"(?m)^crates/\S+antt:\d+: (\S+): ", said)

    def test_a_contract_reaches_what_its_words_are_made_of(self):
        self.write("crates/base/proofs/Bounds.antt", "-- no part of specs/\nabbrev pub most : 3 ≡ 3 → ℕ\nmost e = 3\n")
        counts = "".join(f"{it}: 3 definitions, 6 lines\n" for it in ("run", "all public contracts", "all of specs/"))
        self.assertEqual(self.told(trusted), (False, counts))
        self.assertEqual(self.reached(of_run=True), IN_ORDER)
        listed = self.told(trusted, "--list")[1]
        first = f"{FILE}:4: IsShort: a text is short\n    IsShort []\n    IsShort (1 ∷ 2 ∷ 3 ∷ []) → ⊥\n"
        self.assertIn(f"{first}{FILE}:9: limit: how long a short text is at most\n    limit ≡ 3\n", listed)

    def test_the_block_around_a_definition_belongs_to_it(self):
        with self.changed(("crates/base/specs/Rows.antt", r" \(short : IsShort t\)", "")):
            self.assertEqual(self.reached(of_run=True), ["rest_of"])

    def test_a_definition_behind_an_alias_of_a_word_or_of_a_module_is_reached(self):
        for imported, named in (("Words as words", "words.IsShort"), ("Words.{IsShort as Brief}", "Brief"),
                                ("Words.{limit as most, IsShort as Brief}", "Brief"), ("Words", "Words.IsShort")):
            rows = ROWS.replace("Words.{IsShort}", imported).replace("short : IsShort", f"short : {named}")
            with self.subTest(imported), self.changed(("crates/base/specs/Rows.antt", rows)):
                self.assertEqual(self.reached(of_run=True), IN_ORDER)
            other = rows.replace(f"short : {named}", "short : Other")
            with self.subTest(imported), self.changed(("crates/base/specs/Rows.antt", other)):
                self.assertEqual(self.reached(of_run=True), ["rest_of"])

    def test_a_definition_that_another_crate_passes_on_is_reached(self):
        self.write("crates/user/specs/Lib.antt", "pub use Rattle.base.specs.Words\npub use Rattle.base.specs.Rows\n")
        with self.changed((RUN, ""), (USER, SOURCE.replace("base.specs", "user.specs").replace("fn run", "fn play"))):
            self.assertEqual(self.reached(), IN_ORDER)

    def test_a_ghost_member_of_a_public_type_is_a_contract_and_the_inverse_is_none(self):
        long = (FILE, END, "\n-- long\nabbrev pub IsLong : Text → Type 0\nIsLong t = limit < length t\n")
        with self.changed(long, (RUN, LINE.replace("IsShort}", "IsShort, IsLong}"))):
            self.assertEqual(self.reached(), ["IsShort", "limit"])
        with self.changed((RUN, LINE.replace("pub struct", "struct"))):
            self.assertEqual(self.reached(), [])
        with self.changed((RUN, LINE.replace("fn length_of", "fn run"))):
            self.assertEqual(self.reached(of_run=True), ["IsShort", "limit"])
        for source in (LINE.replace("fn length_of(line: &Line)", "fn run(line: &Other)"),
                       LINE + "\npub fn run(line: &Other) -> u8\n    ensures { result ≡ 1 }\n{\n    1\n}\n"):
            with self.changed((RUN, source)):
                self.assertEqual(self.reached(of_run=True), [])

    def test_a_function_of_a_trait_is_as_public_as_its_type(self):
        line = "ghost use Rattle.base.specs.Words.{limit};\n\npub struct Line {\n}\n\nimpl Shown for Line {\n" \
            "    fn shown(&self) -> u8\n        ensures { result ≡ limit }\n    {\n        1\n    }\n}\n"
        for source, wanted in ((line, ["limit"]), (line.replace("pub struct", "struct"), [])):
            with self.changed((RUN, source)):
                self.assertEqual(self.reached(), wanted)

    def test_a_proof_that_a_contract_names_is_not_followed(self):
        proof = "use Rattle.base.specs.Words.{limit}\n\n-- none\npub none : limit ≡ 3\nnone = refl\n"
        self.write("crates/base/specs/GhostProofs.antt", proof)
        with self.changed((RUN, SOURCE.replace("Rows.{rest_of}", "GhostProofs.{none}").replace("rest_of", "none"))):
            self.assertEqual(self.reached(), [])

    def test_libraries_are_the_crates_that_are_no_programs_no_tests_no_callers_and_no_bench(self):
        found = [it for it in crates(ROOT) if (ROOT / "crates" / it / "src/lib.rt").exists() and not re.search("^bench|test|_(uses|recipes)$", it)]
        self.assertEqual(LIBRARIES, found)

    def test_labels_parameters_and_fields_are_no_words(self):
        source = SOURCE.replace("use Rattle", "use Rattle.base.specs.Words.{limit, IsShort};\nghost use Rattle", 1)
        with self.changed(("crates/base/specs/Rows.antt", r" \(short : IsShort t\)", ""), (RUN, source)):
            self.assertEqual(self.reached(), ["rest_of"])
            for change in ((r"ensures \{", "ensures limit {"), (r"(?s)&Text(.*now) \}", r"&Text, limit: u8\1 limit }"),
                           (r"text\.now \}", "text.now.limit }"), (r"text\.now \}", "record { limit = 0 } }"), (r"now \}", "now } // limit")):
                with self.subTest(change), self.changed((RUN, *change)):
                    self.assertEqual(self.reached(), ["rest_of"])
            with self.changed((RUN, r"text\.now \}", "limit }")):
                self.assertEqual(self.reached(), ["limit", "rest_of"])

    def test_the_contract_of_a_private_function_is_none_of_the_public_ones(self):
        for other in ("fn run", "pub(crate) fn run"):
            with self.changed((RUN, "pub fn run", other)):
                self.assertIn("all public contracts: 0 definitions", self.told(trusted)[1])
        with mock.patch.object(trusted, "LIBRARIES", ["user"]):
            self.assertIn("all public contracts: 0 definitions", self.told(trusted)[1])

    def test_specs_have_definitions_alone(self):
        claim = "pub none : limit ≡ 3\nnone = omega arith\n"
        long = "\n-- long\nabbrev pub IsLong : Text → Type 0\nIsLong t = limit < length t\n"
        self.assert_finds(
            trusted,
            (f"{FILE}:12: none is a proof: it belongs in proofs/", (FILE, END, f"\n{claim}")),
            ("none is a proof: it belongs in proofs/", (FILE, END, f"\n-- none\nabbrev {claim}")),
            ("none is a proof: it belongs", (FILE, END, "\n-- none\nabbrev pub none : limit < 3 → limit ≤ 3\nnone c = c\n")),
            ("", ("crates/base/specs/GhostProofs.antt", f"use Rattle.base.proofs.Order.{{total}}\n\n-- none\n{claim}")),
            (f"{FILE}:13: IsLong is reached by no contract and no law", (FILE, END, long)),
            (f"{FILE}:3: IsShort has no comment", (FILE, "^-- a text is short\n", "")),
            ("rest_of has no comment", ("crates/base/specs/Rows.antt", "^ *-- what stays.*\n", "")),
        )

        with self.changed((FILE, END, long), ("crates/base/proofs/WordLaws.antt", "IsShort", "IsLong")):
            self.assertFalse(self.told(trusted)[0])

    def test_each_kind_of_definition_is_told(self):
        claim = "pub Kind : Text → Type 0\nKind t = limit < length t"
        for kind in (f"abbrev {claim}", f"unfoldable {claim}", "pub record Kind : Type 0 where\n  pub most : limit",
                     "pub data Kind : Type 0 where\n  Most : limit → Kind"):
            definition = (FILE, END, f"\n-- of a kind\n{kind}\n")
            reached = (RUN, SOURCE.replace("Rows.{rest_of}", "Words.{Kind}").replace("rest_of", "Kind"))
            with self.changed((trusted.PAGE, ""), reached, definition):
                self.assertEqual(self.reached(of_run=True), ["limit", "Kind"])
                self.assertIn(f"{FILE}:13: Kind has no example in proofs/examples/Words.antt\n", self.told(trusted)[1])
            self.assert_finds(
                trusted,
                (f"{FILE}:13: Kind is reached by no contract and no law\n", definition),
                (f"{FILE}:12: Kind has no comment\n", (FILE, END, f"\n{kind}\n")),
            )

    def test_a_row_of_the_table_of_edits_is_one_by_what_it_makes(self):
        types = {"addition : List ℕ → ℕ → Edit (Unit {0})": True, "clearing : Edit (Unit {0})": True, "result_of : {X : Type 0} → Edit X → X": False,
                 "cut : List ℕ → ℕ → List ℕ": False}
        for line, wanted in types.items():
            self.assertEqual(IS_EDIT(mock.Mock(lines=[f"abbrev pub {line}"])), wanted, line)

    def test_the_page_has_the_edits_of_run_in_order(self):
        in_the_place = f"{trusted.PAGE} has {{}} in the place of {{}}\n".format
        self.assert_finds(
            trusted,
            (in_the_place("limit", "IsShort"), (trusted.PAGE, r"^(\|`IsShort.*\n)(\|`limit.*\n)", r"\2\1")),
            (in_the_place("None", "rest_of"), (trusted.PAGE, r"^\|`rest_of.*\n", "")),
            (in_the_place("more", "None"), (trusted.PAGE, END, "|`more t`|more|\n")),
            ("", (trusted.PAGE, r"^\|`IsShort t`\|.*\n\|`limit`\|.*$", "|`IsShort t`, `limit`|both|`limit ≡ 3`, `IsShort []`|")),
            (in_the_place("IsShort", "rest_of"), (LIST, "(pub mod Words\n)(pub mod Rows\n)", r"\2\1")),
        )

    def test_a_definition_of_a_public_contract_has_an_example(self):
        told = f"{FILE}:4: IsShort has no example in proofs/examples/Words.antt\n"
        self.assert_finds(
            trusted,
            (told, (OF_WORDS, None)),
            (told, (OF_WORDS, "^IsShort-", "IsShorter-")),
            (told, (OF_WORDS, "^IsShort-", "-- IsShort-")),
            ("", (OF_WORDS, "^IsShort-not.*\n", "")),
            ("limit has no example", (OF_WORDS, "^limit-.*\n", ""), (OF_ROWS, END, "\nlimit-is_three : limit ≡ 3\n")),
        )
        with self.changed((RUN, "fn run", "fn play"), (trusted.PAGE, "")):
            self.assertFalse(self.told(trusted)[0])
            self.assert_finds(trusted, (told, (OF_WORDS, None)))
            with self.changed((OF_WORDS, None), (RUN, "pub fn", "fn")):
                self.assertFalse(self.told(trusted)[0])

    def test_the_page_quotes_what_examples_state(self):
        states = f"{trusted.PAGE}: no example of {{}} states {{}}\n".format
        self.assert_finds(
            trusted,
            (states("limit", "limit ≡ 4"), (trusted.PAGE, "limit ≡ 3", "limit ≡ 4")),
            (states("limit", "limit ≡ 3"), (OF_WORDS, " : limit ≡ 3", " : limit ≡ 4")),
            (states("limit", "limit"), (trusted.PAGE, "limit ≡ 3", "limit")),
            (states("limit", "IsShort []"), (trusted.PAGE, "`limit ≡ 3`", "`limit ≡ 3`, `IsShort []`")),
            (states("IsShort or limit", "IsLong []"), (trusted.PAGE, r"^\|`IsShort.*\n\|`limit.*$", "|`IsShort`, `limit`|both|`IsLong []`|")),
            (f"{trusted.PAGE} quotes no example of limit\n", (trusted.PAGE, "`limit ≡ 3`", "")),
            (f"{trusted.PAGE} quotes no example of limit\n", (trusted.PAGE, r"\|Example\|", "|Others|")),
            ("", (trusted.PAGE, r"`rest_of \[\] ≡ \[\]`", "`rest_of (1 ∷ 2 ∷ []) ≡ 2 ∷ []`")),
        )

    def test_what_only_an_example_names_is_told(self):
        long = (FILE, END, "\n-- long\nabbrev pub IsLong : Text → Type 0\nIsLong t = limit < length t\n")
        example = "use Rattle.base.specs.Words.{IsLong}\n\npub IsLong-of_four : IsLong four\nIsLong-of_four = omega arith\n"
        for path in (OF_WORDS, "crates/base/proofs/examples/WordLaws.antt"):
            self.assert_finds(trusted, ("IsLong is reached by no contract and no law", long, (path, EXAMPLES + example)))
