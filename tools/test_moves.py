"""Which moves and looks might not be counted."""
import moves
from planted import TreeTest

CORE, CUT, END = "crates/arraystring_core/src/array_string.rt", "crates/arraystring_base/src/utf8.rt", r"\Z"
SOURCE = """\
impl ArrayString {{
    pub fn remove_counted(&mut self, steps: &mut Steps) -> u8
        ensures {{ 0 ≡ 0 }}
    {{
        {}
    }}

    pub fn remove(&mut self) -> u8 {{
        self.remove_counted(&mut Steps::new())
    }}
}}
"""
LOOKING = """\
pub fn truncate_str_counted(all: &[u8], steps: &mut Steps) -> u8 {{
    last_byte(all, steps)
}}

pub fn pop_counted(all: &[u8], steps: &mut Steps) -> u8 {{
    last_byte(all, steps)
}}

fn last_byte(all: &[u8], steps: &mut Steps) -> u8 {{
    {}
}}
"""


class Moves(TreeTest):
    FILES = {
        moves.MODULE: "".join(f"pub fn {it}() {{\n    1\n}}\n\n" for it in ("move_run", "write_over"))
        + "pub fn shift(steps: &mut Steps) {\n    move_run(1)\n}\n",
        CORE: SOURCE.format("shift(array, 1, 0, 1, steps)"),
        CUT: LOOKING.format("look(all, 1, steps)"),
        moves.LEAF: "pub fn byte() {\n    1\n}\n\npub(crate) fn put_run() {\n    1\n}\n",
        "crates/arraystring/src/lib.rt": "",
    }

    def test_what_is_given_a_counter_makes_no_other_and_moves_are_counted(self):
        self.assertEqual(self.told(moves)[0], False)
        another, by = f"{CORE}: remove_counted is given a Steps and makes another\n", f"{CORE}: {{}} moves bytes by {{}}, which nothing counts\n"
        given = "fn hand_on(mut steps: Steps) {{\n    {}\n}}\n".format
        self.assert_finds(
            moves,
            (another, (CORE, SOURCE.format("shift(array, 1, 0, 1, &mut Steps::new())"))),
            (another, (CORE, SOURCE.format("shift(array, 1, 0, 1, &mut Steps::default())"))),
            (another, (CORE, SOURCE.format("shift(array, 1, 0, 1, &mut Steps { looked: 0, moved: 0 })"))),
            (another, (CORE, SOURCE.format("shift(array, 1, 0, 1, &mut <Steps>::new())"))),
            *((another, (CORE, SOURCE.format(f"let mut other = {it};\n        shift(array, 1, 0, 1, &mut other)")))
              for it in ("*steps", "steps.clone()")),
            *((f"{CORE}: Steps has another name\n", (CORE, r"\A", it))
              for it in ("use a::Steps as Counter;\n", "type Counter = Steps;\n")),
            *((f"{CORE}: remove_counted assigns to items, which nothing counts\n", (CORE, SOURCE.format(it))) for it in (
                "while at < 9 {\n            self.array[at - 1] = self.array[at];\n        }", "all[at] |= all[at + 1];", "all[1] <<= 1;",
                "for byte in &mut self.array {\n            *byte = 1;\n        }")),
            (f"{CORE}: hand_on is given a Steps and makes another\n", (CORE, END, given("shift(&mut Steps::new())"))),
            *((by.format("remove_counted", it), (CORE, SOURCE.format(f"{it}(1)"))) for it in ("move_run", "put_run", *sorted(moves.OF_STD))),
            (by.format("remove_counted", "move_new"), (moves.MODULE, END, "\npub fn move_new() {\n    1\n}\n"), (CORE, SOURCE.format("move_new(1)"))),
        )
        for path in ("arraystring_base/src/utf8.rt", "arraystring/src/cache_string.rt", "arraystring/src/cache_string/traits.rt"):
            path = f"crates/{path}"
            self.assert_finds(
                moves,
                (f"{path}: hand_on is given a Steps and makes another\n", (path, given("shift(&mut Steps::new())"))),
                (f"{path}: Steps has another name\n", (path, "use a::Steps as Counter;\n")),
            )
        for body in ("shift(array, 1, 0, 1, steps); // move_run, Steps::new()", "write_over(1)", "let [one, other] = all[1] == all[2];"):
            with self.changed((CORE, SOURCE.format(body))):
                self.assertFalse(self.told(moves)[0])

    def test_a_cut_and_a_pop_read_by_look_and_the_core_names_no_leaf_that_writes(self):
        by = f"{CUT}: last_byte may read a byte by {{}}, which nothing counts\n".format
        leaf = f"{CORE}: {{}} of leaf is named, which nothing counts\n".format
        self.assert_finds(
            moves,
            *((by(it), (CUT, LOOKING.format(body))) for it, body in (
                ("byte", "byte(all, 1)"), ("first", "all.first()"), ("[", "all[1]"), ("count_looks", "count_looks(all, look(all, 1, steps))"))),
            ("pop_counted is no function that is given a Steps\n", (CUT, "pop_counted", "pop")),
            *((leaf(it), (CORE, r"\A", line)) for it, line in (
                ("write_bytes", "use arraystring_base::leaf::write_bytes;\n"), ("move_on_cold_path", "use arraystring_base::leaf::{byte, move_on_cold_path};\n"),
                ("as", "use arraystring_base::leaf::{byte as moved};\n"), ("all", "use arraystring_base::{leaf as l};\n"),
                ("all", "use arraystring_base::leaf::*;\n"))),
            (leaf("put_array"), (CORE, SOURCE.format("arraystring_base::leaf::put_array(all, 0, steps)"))),
        )
        for body in ("look(all, all.len(), steps)", "look(text.as_bytes(), 1, steps) // byte(all, 1)"):
            with self.changed((CUT, LOOKING.format(body)), (CORE, r"\A", "use arraystring_base::leaf::{byte, part_of_length};\n")):
                self.assertFalse(self.told(moves)[0])
