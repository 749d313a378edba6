"""What pages link to, quote and name that is not there."""
import pages
from planted import TreeTest

PAGE = """\
# A page

[One](crates/numbers/OTHER.md#two-words), [`code`](crates), [the same](#a-page) and [the web](https://example.com/none#here).
In `[inline](none.md)` there is none, and [on two
lines](crates/numbers/OTHER.md) there is one. From `crates/numbers/src/lib.rt`:

```rust
fn halve(n: u8) -> u8 {
..
fn two() {
}
```

[by name]: crates.txt
"""
LAWS = """\
pub use Rattle.numbers.proofs.HalfLemmas.{half-even}

pub front-made : 1 ≤ 2
front-made = refl

hidden-law : 1 ≤ 2
hidden-law = front-made
"""
FOLDER, END = "crates/numbers", r"\Z"
SOURCE, ROWS, OTHER = f"{FOLDER}/src/lib.rt", f"{FOLDER}/proofs/RowLaws.antt", f"{FOLDER}/OTHER.md"
UPPER = "crates/upper/CALLING.md"
FAULT, GONE = "{}: {} leads nowhere\n".format, f"{OTHER} names {{}}, which no crate has\n".format
NO_LINES = f"PAGE.md: {SOURCE} does not have these lines: {{}} ..\n".format


class Pages(TreeTest):
    FILES = {
        "crates.txt": "numbers:\nupper: numbers\n",
        "PAGE.md": PAGE,
        SOURCE: "fn halve(n: u8) -> u8 {\n    n / 2\n}\n\nfn two() {\n}\n",
        OTHER: "# Other: `halve`, [linked](../../PAGE.md)\n\n## Two words\n\n`front-made n` and `halve(n)`\n\n### Two words\n",
        f"{FOLDER}/REFERENCE.md": "`front-end`\n",
        f"{FOLDER}/proofs/Lib.antt": "mod HalfLemmas\npub mod RowLaws\n",
        f"{FOLDER}/proofs/HalfLemmas.antt": "pub half-even : 1 ≤ 2\nhalf-even = refl\n",
        ROWS: LAWS,
        "crates/upper/proofs/Lib.antt": "pub use Rattle.numbers.proofs.RowLaws\n",
        UPPER: "`front-made`, `half-even` and `c.in_err-call`\n",
    }

    def test_a_link_leads_to_a_file_or_a_heading(self):
        self.assertEqual(self.told(pages), (False, "6 links lead to files and headings, and 1 blocks of code are as in the files\n"))
        # (the folder around the repository is there, and is no part of it)
        for target in ("none.md", "..", "#other", "#A-page", "crates#a-page", f"{OTHER}#a-page", f"{OTHER}#two-words-2"):
            self.assert_finds(
                pages,
                (FAULT("PAGE.md", target), ("PAGE.md", r"\(crates\)", f"({target})")),
                (FAULT("PAGE.md", target), ("PAGE.md", r"\[by name\]: .*", f"[by name]: {target}")),
            )
        for target in (FOLDER, f"{OTHER}#two-words-1", f"{OTHER}#other-halve-linked"):
            self.assert_finds(pages, ("", ("PAGE.md", r"\(crates\)", f"({target})")))
        self.assert_finds(
            pages,
            (FAULT(OTHER, "../PAGE.md"), (OTHER, r"\(../../", "(../")),
            (FAULT("PAGE.md", f"{OTHER}#two-words"), (OTHER, "^(#+) Two words", r"\1 More words")),
        )

    def test_a_block_stands_in_the_file_that_its_page_names(self):
        self.assert_finds(
            pages,
            (NO_LINES("fn halve(n: u8) -> u8 {"), (SOURCE, "^fn halve", "pub fn halve")),
            (NO_LINES("fn halve(n: u8) -> u8 {"), ("PAGE.md", r"u8 \{\n", "u8 {\n\n")),
            (NO_LINES("fn two() {"), (SOURCE, "two", "both")),
            # (lines may be left out, and not turned round)
            (NO_LINES("fn two() {"), (SOURCE, "fn two() {\n}\n\nfn halve(n: u8) -> u8 {\n    n / 2\n}\n")),
            (NO_LINES("fn halve(n: u8) -> u8 {"), (SOURCE, None), (f"{FOLDER}/src/more.rt", "fn halve(n: u8) {\n}\n")),
        )

    def test_a_page_names_what_is_there_and_laws_that_its_callers_can_cite(self):
        hidden = f"{OTHER} names {{}}, which is no law for callers\n".format
        self.assert_finds(
            pages,
            # (a law, a call, and a word alone; of other code only laws and calls are names)
            *((GONE(name), (OTHER, END, f"`{code}`\n")) for name, code in (
                ("front-end", "f (front-end n)"), ("third(", "n.third(1)"), ("half(", "half(n)"), ("quarter", "quarter"))),
            ("", (OTHER, END, "`quarter of n`, `n.quarter`, `c.in-Ok.ensures` and `NAME`\n")),
            ("", (OTHER, END, "\n```antt\n`front-end`\n```\n")),
            (GONE("halve("), (SOURCE, "halve", "halved")),
            (hidden("hidden-law"), (OTHER, END, "`hidden-law n m`\n")),
            (hidden("front-made"), (ROWS, "pub front-made", "front-made")),
            (f"{UPPER} names half-even, which is no law", (ROWS, "^pub use Rattle.*\n", "")),
            (f"{UPPER} names front-made, which is no law", ("crates/upper/proofs/Lib.antt", "")),
        )
