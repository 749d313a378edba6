"""What a copy of the crates has, and where the logic of a kit is told."""
import add
from planted import TreeTest
from repository import read

VERSION = "#!/bin/sh\necho kit-2 logic {}\n".format
END = r"\Z"


class Add(TreeTest):
    FILES = {
        "crates.txt": "# the lowest\nbase:\ncore: base serde_json\ntop: base core\nother: top\n",
        "README.md": "`rt version` prints `kit-1 logic 1a2b`.\n",
        "LICENSE": "MIT\n",
        **{f"crates/{it}/src/lib.rt": f"// {it}\n" for it in ("base", "core", "top", "other")},
        "crates/base/src/deep/two.rt": "// two\n",
        "crates/core/specs/Lib.antt": "-- none\n",
        "crates/core/proofs/one/Answers.antt": "-- one\n",
        "crates/core/must-fail/one.edit": "file: src/lib.rt\n",
    }

    def setUp(self):
        super().setUp()
        self.stand_in_for_rt(VERSION("1a2b"))
        self.there = self.root / "there"
        self.there.mkdir()

    def files(self):
        return sorted(str(it.relative_to(self.there)) for it in self.there.rglob("*") if it.is_file())

    def test_a_crate_comes_with_those_below_it(self):
        self.assertEqual(self.told(add, str(self.there), "core"), (False, f"{self.there} has base, core\nthe logic is 1a2b\n"))
        self.assertEqual(self.files(), [
            "crates.txt",
            *(f"crates/base/{it}" for it in ("LICENSE", "src/deep/two.rt", "src/lib.rt")),
            *(f"crates/core/{it}" for it in ("LICENSE", "proofs/one/Answers.antt", "specs/Lib.antt", "src/lib.rt")),
        ])
        self.assertEqual(read(self.there / "crates.txt"), "base:\ncore: base serde_json\n")
        self.assertEqual(self.told(add, str(self.there), "top", "other")[1], f"{self.there} has base, core, top, other\nthe logic is 1a2b\n")

    def test_an_older_copy_becomes_the_new_one(self):
        old = {
            "crates.txt": "# mine\nmine: core\ncore: base\n",
            **{f"crates/{it}": "old\n" for it in ("mine/src/lib.rt", "core/src/old.rt", "core/src/lib.rt", "base/specs/Lib.antt", "core/out/kept", "core/NOTES.md")},
        }
        for path, text in old.items():
            self.write(f"there/{path}", text)
        self.assertFalse(self.told(add, str(self.there), "core")[0])
        files = self.files()
        self.assertEqual(read(self.there / "crates.txt"), "# mine\nmine: core\nbase:\ncore: base serde_json\n")
        self.assertEqual(read(self.there / "crates/core/src/lib.rt"), "// core\n")
        self.assertTrue({"crates/mine/src/lib.rt", "crates/core/out/kept", "crates/core/NOTES.md"} < {*files})
        self.assertFalse({"crates/core/src/old.rt", "crates/base/specs/Lib.antt"} & {*files})

    def test_nothing_is_copied_to_no_other_repository(self):
        for folder, crate, wanted in ((self.there, "none", "no crate none"), (self.root, "top", "is no folder"), (self.there / "none", "top", "is no folder")):
            outcome, said = self.told(add, str(folder), crate)
            self.assertTrue(outcome and wanted in said, said)
        self.assertEqual(self.files(), [])

    def test_the_logic_stands_on_one_page_and_is_that_of_the_kit(self):
        self.assertEqual(self.told(add), (False, "the logic is 1a2b\n"))
        self.assert_finds(
            add,
            ("the crates are proved with the logic 1a2b, and rt version prints kit-2 logic 3c4d\n", ("bin/rt", VERSION("3c4d"))),
            ("the logic 5e6f, and rt version prints kit-2 logic 1a2b\n", ("README.md", "1a2b", "5e6f")),
            ("crates/top/CALLING.md names the logic, as README.md alone does\n", ("crates/top/CALLING.md", "It is `1a2b`.\n")),
            ("", ("crates/top/CALLING.md", "It is that of README.md.\n")),
        )
        with self.changed(("bin/rt", VERSION("3c4d"))):
            self.assertTrue(self.told(add, str(self.there), "base")[0])
