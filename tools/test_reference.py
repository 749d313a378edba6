"""What the reference has of the sources, and that it is told where it is not as they are."""
import re

import reference
from planted import TreeTest
from repository import read

BASE, CORE, TOP, END = reference.BASE, reference.CORE, reference.TOP, r"\Z"
PUSH = f"{CORE}/src/array_string/push.rt"
LAWS = f"{CORE}/proofs/AddLaws.antt"
RULES = f"{TOP}/proofs/Rules.antt"
OLD = f"{TOP}/specs/Old.antt"


UTF8 = """\
//! UTF-8.

/// Whether it is. Not more.
#[inline]
pub fn is_boundary(text: &str) -> bool {
    true
}

/// Is inner.
pub fn inner() {
}
"""
STRING = """\
//! `ArrayString`: the type.

/// Text.
impl<const N: usize> Model for ArrayString<N> {
    ghost view = { λ s. s };
}
"""
PUSHES = """\
//! Appends.
ghost use Rattle.std.specs.Str.{NonePass};

impl<const N: usize> ArrayString<N> {
    /// Appends `ch`, as
    /// it is. It may not fit.
    ///
    /// # Errors
    #[inline]
    pub fn try_push(&mut self, ch: char) -> bool
        ensures made { NonePass
            self.new.text }
    {
        true
    }

    /// Is private.
    fn end(&self) -> usize {
        1
    }
}

/// Hashes.
impl<const N: usize> Hash for ArrayString<N> {
    ghost hash_input = { λ s. s.text };

    ghost laws = { on_equiv };

    fn hash(&self) {
    }
}
"""
TEXT = """\
-- Texts.
use Rattle.std.specs.Prelude.{ℕ, List}

-- the bytes
abbrev pub size : List ℕ → ℕ
size t = 1

abbrev hidden : ℕ
hidden = 0
"""
ADDED = """\
-- Laws of additions. And more.

module _ (n : ℕ) where
  -- it is added
  pub add-made : n ≡ n
      → n ≡ n
  add-made e = e

  inner-law : n ≡ n
  inner-law = refl
"""


class Reference(TreeTest):
    FILES = {
        "crates.txt": "arraystring_base:\narraystring_core: arraystring_base\narraystring: arraystring_core\n",
        f"{BASE}/src/utf8.rt": UTF8,
        f"{BASE}/src/laws.rt": "//! Laws.\n\n/// Parts are all.\npub fn parts()\n    ensures { NonePass }\n{}\n",
        f"{BASE}/specs/Text.antt": TEXT,
        f"{CORE}/src/array_string.rt": STRING,
        PUSH: PUSHES,
        f"{CORE}/specs/Lib.antt": "pub use Rattle.arraystring_base.specs.Text\n",
        LAWS: ADDED,
        f"{TOP}/src/lib.rt": "//! inner\npub mod utils {\n    pub use arraystring_base::utils::{is_boundary};\n}\n",
        f"{TOP}/src/laws.rt": "//! More laws.\n",
        f"{TOP}/specs/Lib.antt": "pub use Rattle.arraystring_core.specs.Text\npub mod Errors\npub mod Old\n",
        f"{TOP}/specs/Errors.antt": "-- The errors.\npub use Rattle.arraystring_base.specs.declared.error.Error.{Error}\n",
        OLD: "-- This module exports the definitions of `arraystring_core.specs.Text`. Old names are here, too.\n"
             "pub use Rattle.arraystring_core.specs.Text.{size, size as length}\n",
        f"{TOP}/proofs/Lib.antt": "pub use Rattle.arraystring_core.proofs.AddLaws\npub mod Rules\n",
        RULES: "-- Rulesets.\nuse Rattle.arraystring_core.proofs.AddLaws.{add-made}\n\n-- appends\npub ruleset additions = (add-made)\n",
    }

    def setUp(self):
        super().setUp()
        self.assertTrue(self.told(reference)[0], "there is none yet")
        self.assertFalse(self.told(reference, "--write")[0])
        self.page = read(self.root / reference.PAGE)

    def test_it_has_what_callers_reach(self):
        for text in (
            "### crates/arraystring_core/src/array_string/push.rt\n\nAppends.\n\n```rust\n/// Appends `ch`, as it is.\n"
            "pub fn try_push(&mut self, ch: char) -> bool\n    ensures made { NonePass\n        self.new.text }\n\n"
            "/// Hashes.\nimpl<const N: usize> Hash for ArrayString<N>\n    ghost hash_input = { λ s. s.text };\n```\n",
            "/// Whether it is.\npub fn is_boundary(text: &str) -> bool\n```\n",
            "/// Parts are all.\npub fn parts()\n    ensures { NonePass }\n",
            "- `additions`: appends. It has `add-made`\n",
            "### Rattle.arraystring.proofs.AddLaws\n\nLaws of additions.\n\n```antt\nmodule _ (n : ℕ) where\n  -- it is added (in additions)\n"
            "  add-made : n ≡ n\n      → n ≡ n\n```\n",
            "### Rattle.arraystring.specs.Text\n\nTexts.\n\n```antt\n-- the bytes\nsize : List ℕ → ℕ\nsize t = 1\n```\n",
            "### Rattle.arraystring.specs.Errors\n\nThe errors.\nIt also has `Error`\n",
            "- `Rattle.std.specs.Str`: `NonePass`\n",
        ):
            self.assertIn(text, self.page)
        self.assertFalse(re.search("inner|private|hidden|Model|on_equiv", self.page))

    def test_it_is_told_where_the_sources_have_something_else(self):
        self.assertEqual(self.told(reference), (False, f"{reference.PAGE} is as the sources are\n"))
        for change in (
            *((LAWS, *it) for it in (("→ n ≡ n", "→ n ≡ 1"), ("is added", "is taken"), ("inner-law :", "pub inner-law :"), (r"\(n : ℕ\)", "{n : ℕ}"))),
            *((PUSH, *it) for it in (("ensures made", "ensures done"), ("pub fn", "fn"), (r"it is\.", "it is not."), (r"s\.text }", "s }"), ("Str", "Strings"))),
            *((RULES, *it) for it in ((r"\(add-made\)", "(add-made, refl)"), ("appends", "adds"))),
            (f"{CORE}/src/array_string/more.rt", PUSHES.replace("try_push", "more")),
            (f"{BASE}/specs/Text.antt", "= 1", "= 2"), (f"{TOP}/src/lib.rt", "is_boundary", "inner"), (f"{TOP}/proofs/Lib.antt", "^pub use.*\n", ""),
            (reference.PAGE, "it is added", "it is taken"), (reference.PAGE, END, "\n"), (reference.PAGE, None),
        ):
            self.assert_finds(reference, (f"{reference.PAGE} is not what the sources make", change))
        # (a proof is none of its own, nor is what stands in a body)
        self.assert_finds(reference, ("", (LAWS, "add-made e = e", "add-made e = sym e")), ("", (PUSH, "        true", "        false")))

    def test_a_new_definition_is_passed_on_beside_old_names(self):
        change = (f"{BASE}/specs/Text.antt", END, "\n-- the width\nabbrev pub width : ℕ\nwidth = 1\n")
        self.assert_finds(reference, (f"{OLD} lacks a definition", change), (f"{reference.PAGE} is not", (OLD, "size as length", "size as long")))
        with self.changed(change):
            self.assertFalse(self.told(reference, "--write")[0])
            self.assertIn("Text.{size, size as length, width}\n", read(self.root / OLD))

    def test_it_says_where_the_page_begins_to_differ(self):
        with self.changed((LAWS, "it is added", "it is taken")):
            self.assertIn("-- it is taken (in additions)", self.told(reference)[1])
