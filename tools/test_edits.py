"""How wrong bodies and their controls are read, those in must-fail/ and those in the file of their crate."""
import edits
from planted import TreeTest
from repository import read

FOLDER = "crates/numbers"
PAIR, RIGHT = "file: src/lib.rt\nold:     1\nnew:     2\n", "# right:     { 1 }\n"
PAGE = f"""\
# What is tried before a release.

## one

### is_two
# A sentence of why,
# and another.
{PAIR}{RIGHT}
### is_three
{PAIR.replace("2", "3")}
## Number.other

### calls_itself
file: src/lib.rt
old:
    fn other() {{
new:     fn other() {{
             other();
             RESULT
# right:
    fn other() {{ RESULT
old: RESULT
new: 4;
"""


class Edits(TreeTest):
    FILES = {f"{FOLDER}/src/lib.rt": "fn one() {\n    1\n}\n\nfn other() {\n    3\n}\n", f"{FOLDER}/src/more.rt": "a\n"}

    def applied(self, text, is_right=False):
        """The texts that a wrong body of this text makes, or its control, by their paths."""
        edit = edits.Edit(self.root / FOLDER, "one.is_two", text, None)
        return {str(file.relative_to(self.root / FOLDER)): made for file, made in edit.applied(is_right).items()}

    def read(self, page):
        """The wrong bodies of the crate where its file has this text."""
        self.write(f"{FOLDER}/{edits.MORE}", page)
        return edits.wrong_bodies(self.root / FOLDER)

    def test_each_replacement_is_made_on_what_the_ones_before_made(self):
        several = f"{PAIR}{RIGHT}old: fn one\nnew: fn first\nfile: src/more.rt\nold: a\nnew: b\nold: b\nnew: c\n# right:\n"
        for is_right, first, more in ((False, "2", "c\n"), (True, "{ 1 }", "\n")):
            due = {"src/lib.rt": f"fn first() {{\n    {first}\n}}\n\nfn other() {{\n    3\n}}\n", "src/more.rt": more}
            self.assertEqual(self.applied(several, is_right), due)

    def test_what_is_no_wrong_body_or_stands_not_once_is_refused(self):
        old, new = PAIR.splitlines()[1:]
        for text in (f"{old}\n{new}\n", f"file: src/lib.rt\n{new}\n", f"file: src/lib.rt\n{old}\n", f"{PAIR}right: 1\n", RIGHT + PAIR,
                     PAIR + PAIR, f"{PAIR}{RIGHT}{RIGHT}", "file: src/lib.rt\nold: fn\nnew: f\n", PAIR.replace("lib.rt", "none.rt"),
                     "", "# why\n", f"{PAIR}# why\n", f"{PAIR}\n{PAIR}", f"{PAIR}### is_three\n",
                     PAIR.replace("new:", "# why\nnew:"), f"    {PAIR}"):
            with self.subTest(text), self.assertRaises(ValueError):
                self.applied(text)

    def test_a_text_in_indented_lines_is_one_line(self):
        for lines, line in (("", ""), (" a", "a"), ("   a", "  a"), ("\n    a", "a"), ("\n  a\n      b", "a b"), ("   a\n b  ", "  a b"),
                            (" a \n b\n c", "a  b c")):
            edit = edits.Edit(self.root / FOLDER, "one.is_two", f"file: src/lib.rt\nold:{lines}\nnew:{lines}\n# right:{lines}\n", "one")
            self.assertEqual([*edit.parts()], [("src/lib.rt", line, line, line)], lines)
            self.assertEqual(edit.for_rt(), f"file: src/lib.rt\nold: {line}\nnew: {line}\n# right: {line}\n")

    def test_those_of_the_file_have_the_name_of_both_headings(self):
        self.write(f"{FOLDER}/must-fail/one.is_four.edit", PAIR)
        found = self.read(PAGE)
        self.assertEqual([(it.name, it.heading) for it in found], [
            ("one.is_four", None), ("one.is_two", "one"), ("one.is_three", "one"), ("Number.other.calls_itself", "Number.other")])
        self.assertEqual([it.has_control() for it in found], [False, True, False, True])
        self.assertEqual([it.for_rt() for it in found[:3]], [PAIR, PAIR + RIGHT, PAIR.replace("2", "3")])
        for is_right, body in ((False, "    fn other() { other(); 4;"), (True, "fn other() { 4;")):
            text = read(self.root / FOLDER / "src/lib.rt").replace("fn other() {", body)
            self.assertEqual(found[3].applied(is_right), {self.root / FOLDER / "src/lib.rt": text})

    def test_nothing_in_the_file_is_passed_over(self):
        """Whatever is no wrong body is read as one that has no function's name, or as none that can be put into the crate."""
        for old, new in (("# What is", "file: src/lib.rt\n# What is"), ("## one\n\n", ""), ("### is_two\n", ""), ("\n## Number", "\n# Number"),
                         ("### is_three", "# is_three"), ("\n### is_three", "### is_three"), ("\n## Number", "\n## none\n\n## Number"),
                         ("# A sentence", "A sentence"), ("# and another", "\n# and another"), ("## one\n", "## one\nfile: src/lib.rt\n"),
                         ("### is_three", "#### is_three")):
            with self.subTest(old=old, new=new):
                self.assertIn(old, PAGE)
                found = self.read(PAGE.replace(old, new, 1))
                self.assertTrue([it for it in found if it.heading not in ("one", "Number.other") or not self.fits(it)], found)

    def fits(self, edit):
        try:
            return bool(edit.applied(False) and edit.applied(True))
        except ValueError:
            return False
