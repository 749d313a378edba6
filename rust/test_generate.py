#!/usr/bin/env python3
"""test_generate.py: what generate.py makes of unusual sources, and which of them it refuses. `rust/check` runs it."""
import tempfile
import unittest
from pathlib import Path

import generate

# A source, and what comes of it.
MADE = {
    'const A: &str = "{\n\n\n\n}";': None,
    'fn f(steps: &mut Steps) {\n    g(); // why\n    steps.count();\n}': 'fn f() {\n    g(); // why\n}',
    'fn f() -> u8 // hot\n    requires { a } {\n}': 'fn f() -> u8 {\n}',
    '#![deny(a)]\nuse crate::laws::a;\nfn f() {}': '#![deny(a)]\nfn f() {}',
    'use crate::laws::{a as b};\nuse crate::c::a;\nfn f() {\n    b(c);\n    a(c);\n}':
        'use crate::proved::base::c::a;\nfn f() {\n    a(c);\n}',
    'use crate::a::{self, Steps};': 'use crate::proved::base::a::{self};',
    'fn f(a: u8)\n    requires { a < 3 // } ghost {{\n        + 1 }\n    ensures more { result }\n{\n    a\n}': 'fn f(a: u8) {\n    a\n}',
    'let f = |a: u8| -> u8 requires { a < 3 } { a };': 'let f = |a: u8| -> u8 { a };',
    'f("ghost use a; requires { Steps std:: [0; N]", r#"} " ghost"#, b\'\\\'\', \'{\', \'\\u{7D}\');': None,
    '#[derive(Clone, Drop, Debug)]\nstruct A<F: Fn(u8) -> u8> {\n    ghost is: { a ≤ 3 },\n    a: F,\n}':
        '#[derive(Clone, Debug)]\nstruct A<F: Fn(u8) -> u8> {\n    pub(crate) a: F,\n}',
    'struct A {\n    /// It.\n    array: [u8; 3],\n    pub a: B<u8, u8>,\n}':
        '#[repr(C)]\nstruct A {\n    pub a: B<u8, u8>,\n    /// It.\n    pub(crate) array: [crate::leaf::MaybeByte; 3],\n}',
    'fn f(a: u8) -> [u8; 2] {\n    f_counted(a, &mut Steps::new())\n}\n\n'
    'fn f_counted(a: u8, steps: &mut Steps) -> [u8; 2] {\n    steps.count(a);\n    Self::g_counted(steps)\n}\n\n'
    'fn g() {\n}\n\nfn g_counted(steps: &mut Steps) {\n}':
        'fn f(a: u8) -> [u8; 2] {\n    Self::g()\n}\n\nfn g() {\n}',
    'use crate::a::{Steps, g, g_counted};\nuse crate::laws::{it as fact};\nuse std::str;\n'
    'fn g() {\n    fact(&self.a); // why\n    let _ = &h();\n}\nfn g_counted(steps: &mut Steps) {\n    let _ = &h();\n}':
        'use crate::proved::base::a::g;\nuse core::str;\nfn g() {\n    let _ = &h();\n}',
    '/// It.\n///\n/// # Examples\n///\n/// ```\n/// # use a;\n/// ```\n///\n/// # Errors\n///\n/// None.\nfn f();':
        '/// It.\n///\n/// # Errors\n///\n/// None.\nfn f();',
    'macro_rules! m {\n    ($a:ident) => { #[tactic(none)] fn $a() requires { true } { crate::leaf::b() } };\n}':
        'macro_rules! m {\n    ($a:ident) => { fn $a() { crate::leaf::b() } };\n}',
}

# What is refused, at the line of the `@` (which is no part of the source).
REFUSED = [
    '\n@ghost fn f() {}',
    'fn f()\n@ghost a: { b }\n{}',
    'struct A {\n@ghost a: { b } by { c },\n}',
    'fn f()\n@requires* { a }\n{}',
    'fn f()\n    requires @{ a',
    '\n@prove!(a);',
    'fn f(a: &mut @Steps) {}',
    'use a::{@Steps as Counter};',
    '\nlet @steps = 3;\nf(steps);',
    'fn f() {\n    @steps.count(h());\n}',
    'fn f(a: u8) @{\n    g();\n    f_counted(a)\n}\nfn f_counted(a: u8) {}',
    'fn f(b: u8, a: u8) @{\n    f_counted(a, b)\n}\nfn f_counted(a: u8, b: u8) {}',
    'impl A {\n    fn f_counted() @{}\n}\nimpl B {\n    fn f() {}\n}',
    'let @is_counted = a;',
    '#[cfg_attr(test, @tactic(auto))]\nfn f() {}',
    'use crate::laws::a;\nfn f() {\n    b(@a(c));\n}',
    'use crate::laws::a;\nfn f() {\n    @a(c());\n}',
    'use crate::{b, @laws::a};',
    'fn f<A: @Drop + B>() {}',
    'use @std as other;',
    '\n@/* } */',
    '// SAFETY: so.\nlet a = unsafe { b };\nlet c = @unsafe { d };',
    '/// ```\n/// a\n/// ```\n@fn f() {}',
    'use crate::laws::a;\n@fn a() {}',
    'for (_, @steps) in a {\n    steps.end();\n}',
    '#[derive(@Debug)]\nstruct A {\n    array: [u8; 3],\n}',
    'struct A {\n    b: [u8; 3],\n    a: u8, // why\n@}',
    '\n@struct A([u8; 4], u8);',
]


def made(source):
    with tempfile.TemporaryDirectory() as folder:
        path = Path(folder, 'arraystring_base/src/a.rt')
        path.parent.mkdir(parents=True)
        path.write_text(source, encoding='utf8')
        the_list = Path(folder, generate.LIST)
        the_list.parent.mkdir(parents=True)
        the_list.write_text('// pop', encoding='utf8')
        files = generate.made(Path(folder))
        assert files[generate.COPY] == '// pop', files[generate.COPY]
        return files[Path('base/a.rs')].split('\n', 1)[1].strip()


class Test(unittest.TestCase):
    maxDiff = None

    def test_what_is_made(self):
        for source, wanted in MADE.items():
            self.assertEqual(made(source + '\n'), wanted or source)

    def test_what_is_refused(self):
        for source in REFUSED:
            line = source[:source.index('@')].count('\n') + 1
            with self.subTest(source), self.assertRaisesRegex(SystemExit, rf'/a\.rt:{line}: '):
                made(source.replace('@', '') + '\n')


if __name__ == '__main__':
    unittest.main()
