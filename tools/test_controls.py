"""What is told of the wrong bodies and the controls that are tried: over a stand-in for `rt`."""
import controls
from edits import MORE
from planted import TreeTest
from repository import read

FOLDER = "crates/numbers"
SOURCE, EDIT = f"{FOLDER}/src/lib.rt", f"{FOLDER}/must-fail/one.is_two.edit"
PAIR, RIGHT = "file: src/lib.rt\nold:     1\nnew:     2\n", "# right:     { 1 }\n"
# Proves what has no `2`, and writes into out/. What the crate's own check left there is there again before each other.
RT = "#!/bin/sh\n[ \"$*\" = check ] || exit 9\ncase $(cat out/kept) in all | allx) printf x >> out/kept ;; *) exit 9 ;; esac\n" \
    "echo './proofs/it.antt:2:1: note: large'\n! grep -q 2 src/lib.rt || { echo 'note: src/lib.rt:2:5: open'; exit 1; }\n"


class Controls(TreeTest):
    FILES = {
        "crates.txt": "numbers:\nletters: numbers\n",
        SOURCE: "fn one() {\n    1\n}\n\nfn other() {\n    3\n}\n",
        EDIT: PAIR + RIGHT,
        f"{FOLDER}/must-fail/other.is_four.edit": "file: src/lib.rt\nold:     3\nnew:     2\n",
        f"{FOLDER}/out/kept": "all",
        "crates/letters/src/lib.rt": "",
        "crates/letters/out/kept": "all",
    }

    def setUp(self):
        super().setUp()
        self.stand_in_for_rt(RT)

    def test_a_control_has_to_prove(self):
        proves = "numbers one.is_two: the control proves\n1 are as they have to be, 0 are not\n"
        self.assertEqual(self.told(controls), (False, proves))
        with self.changed((EDIT, None), (f"{FOLDER}/{MORE}", f"\n## one\n\n### is_two\n{PAIR}{RIGHT}")):
            self.assertEqual(self.told(controls, "numbers"), (False, proves))
            told = "numbers one.is_two: the wrong body is refused: note: src/lib.rt:2:5: open\n" + proves.replace("1 are", "2 are")
            self.assertEqual(self.told(controls, "numbers", "--edits", "one"), (False, told))
            # (the name is that of the function, and not a part of it)
            self.assertTrue(self.told(controls, "numbers", "--edits", "on")[0])
        with self.changed((EDIT, r"\{ 1 \}", "{ 2 }")):
            refused = "numbers one.is_two: the control is refused: note: src/lib.rt:2:5: open\n0 are as they have to be, 1 are not\n"
            self.assertEqual(self.told(controls, "numbers"), (True, refused))
        with self.changed((EDIT, "old:     1", "old:     5")):
            self.assertIn("one.is_two: src/lib.rt does not have this once:     5\n", self.told(controls)[1])
        self.assertEqual(read(self.root / SOURCE), self.FILES[SOURCE])
        self.assertEqual(read(self.root / FOLDER / "out/kept"), "all")

    def test_a_wrong_body_of_a_function_has_to_be_refused(self):
        told = "numbers one.is_two: the wrong body is refused: note: src/lib.rt:2:5: open\nnumbers one.is_two: the control proves\n"
        self.assertEqual(self.told(controls, "numbers", "--edits", "one"), (False, f"{told}2 are as they have to be, 0 are not\n"))
        with self.changed((EDIT, "new:     2", "new:     7")):
            failed, said = self.told(controls, "numbers", "--edits", "one")
            self.assertEqual((failed, said.splitlines()[0]), (True, "numbers one.is_two: the wrong body proves"))

    def test_a_crate_that_is_not_proved_and_one_that_is_not_there(self):
        with self.changed((SOURCE, "    3", "    2")):
            self.assertEqual(self.told(controls, "numbers")[1].splitlines()[0], "numbers is not proved: note: src/lib.rt:2:5: open")
        self.assertEqual(self.told(controls, "none"), (True, "no crate is named none"))
        self.assertTrue(self.told(controls, "letters")[0])
