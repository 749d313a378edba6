"""Which calls, laws and commands have no test or no row, and which lemmas nothing names."""
import uses
from planted import TreeTest

STRING, END = "crates/arraystring_core/src/array_string", r"\Z"
CALL = "impl<const N: usize> ArrayString<N> {{\n    /// It is so.\n    pub fn {}(&self) {{\n    }}\n\n    fn hidden(&self) {{\n    }}\n}}\n"
LINE = "crates/arraystring_run/src/line.rt"
COMMANDS = 'match word {\n    "pop" => Command::Pop,\n    "len" | "size" => Command::Len,\n    "get" if two => Command::Get,\n    _ => "none",\n}\n'
TABLES, OTHERS = uses.TESTS
ROWS, MORE = f"{TABLES}/remove.rt", f"{OTHERS}/more.rt"
UPPER = "crates/arraystring"
LEMMAS, LAWS = f"{UPPER}/proofs/HalfLemmas.antt", f"{UPPER}/proofs/RowLaws.antt"
ODD = "\npub half-odd : (n : ℕ) → half n ≡ n\nhalf-odd n = half-odd n\n"


class Uses(TreeTest):
    FILES = {
        "crates.txt": "arraystring_core:\narraystring: arraystring_core\n",
        f"{STRING}.rt": CALL.format("len").replace("pub fn", "pub const fn"),
        f"{STRING}/remove.rt": CALL.format("pop"),
        "crates/arraystring_core/src/laws.rt": "pub fn popped() {\n}\n",
        f"{UPPER}/src/laws.rt": "pub use arraystring_core::laws::popped;\n\npub fn given() {\n}\n",
        LINE: COMMANDS,
        ROWS: '"\nab | pop | | | b | a\n"\n',
        MORE: "fn more() {\n    text.len();\n    popped();\n    given();\n}\n",
        uses.SCRIPTS: "|`pop`|\n|`len`, `size`|\n|`get A B`|\n",
        f"{UPPER}/REFERENCE.md": "`row-made`\n",
        f"{UPPER}/proofs/Lib.antt": "mod HalfLemmas\npub mod RowLaws\n",
        LEMMAS: "-- of halves\nstep : (n : ℕ) → n ≡ n\nstep n = refl\n",
        LAWS: "use Rattle.arraystring.proofs.HalfLemmas.{step}\n\npub row-made : 1 ≡ 1\nrow-made = step 1\n",
    }

    def test_each_call_and_law_has_a_test_and_each_command_a_row(self):
        said = "2 calls and 2 laws have a test, 4 commands a row, and 2 lemmas and laws are named or for callers\n"
        self.assertEqual(self.told(uses), (False, said))
        tests, trim = f"does not stand in {TABLES} or {OTHERS}", (f"{STRING}/trim.rt", CALL.format("trim"))
        self.assert_finds(
            uses,
            (f"{STRING}/trim.rt: trim {tests}\n", trim),
            # (what makes the calls of tables makes each, and a comment makes none)
            (f"pop {tests}", (ROWS, "pop ", ""), (f"{TABLES}/calls.rt", "pop()\n")),
            (f"pop {tests}", (ROWS, "pop ", ""), (f"{TABLES}/call_list.rt", "pop()\n")),
            (f"len {tests}", (MORE, "    text.len", "    // text.len")),
            # (a name, a text, and another column of a row are no call)
            *((f"len {tests}", (MORE, r"text\.len\(\);", it)) for it in ("let len = 1;", 'told("len");', "fn len() {}", '"len | a | len"')),
            ("", (MORE, r"text\.len\(\)", "ArrayString::len::<4>()")),
            (f"crates/arraystring_core/src/laws.rt: popped {tests}", (MORE, "    popped.*\n", "")),
            (f"{UPPER}/src/laws.rt: given {tests}", (MORE, "    given.*\n", "")),
            *((f"{LINE}: {it} does not stand in {uses.SCRIPTS}", (uses.SCRIPTS, rf"`{it}\b", "`other")) for it in ("pop", "len", "size", "get")),
        )

        with self.changed(trim, (ROWS, "ab [|] pop", "ab | pop trim")):
            self.assertFalse(self.told(uses)[0])

    def test_a_lemma_that_nothing_names_is_told(self):
        nothing, odd = f"{LEMMAS}: nothing names half-odd\n", (LEMMAS, END, ODD)
        self.assert_finds(
            uses,
            (nothing, odd),
            (nothing, (LEMMAS, END, f"\n-- as half-odd\n{ODD}")),
            (f"{LEMMAS}: nothing names step\n", (LAWS, r"\.\{step\}", ""), (LAWS, "= step 1", "= refl")),
            # (a lemma of this name in another module is another)
            (nothing, odd, (f"{UPPER}/proofs/MoreLemmas.antt", f"{ODD}\neven = half-odd\n"), (f"{UPPER}/proofs/pop/Answers.antt", "returns = even\n")),
            # (a page is no use, nor is an example)
            (nothing, odd, (f"{UPPER}/CALLING.md", "`half-odd`\n")),
            (nothing, odd, (f"{UPPER}/proofs/examples/Numbers.antt", "half-of_one = half-odd 1\n")),
        )
        for cites in ((f"{UPPER}/proofs/pop/Answers.antt", "use Rattle.arraystring.proofs.HalfLemmas.{half-odd}\nreturns = half-odd 1\n"), (f"{UPPER}/proofs/Lib.antt", "\\Amod", "pub mod")):
            with self.changed(odd, cites):
                self.assertFalse(self.told(uses)[0], cites)

    def test_no_crate_but_the_core_names_what_lies_around_a_text(self):
        places, text = ("src/lib.rt", "specs/Words.antt", "proofs/half/Answers.antt", "proofs/examples/Numbers.antt"), "of = λ s. s.spare\n"
        for it in places:
            self.assert_finds(
                uses,
                (f"{UPPER}/{it} names spare, as arraystring_core alone may\n", (f"{UPPER}/{it}", text)),
                ("", (f"{UPPER}/{it}", "-- spare\n// spare\n")),
                ("", (f"crates/arraystring_core/{it}", text)),
            )

    def test_a_search_that_finds_nothing_fails(self):
        for path in (f"{STRING}.rt", f"{STRING}/remove.rt", LINE, f"{UPPER}/src/laws.rt", "crates/arraystring_core/src/laws.rt"):
            self.write(path, "")
        self.assertTrue(self.told(uses)[0])
