#!/usr/bin/env python3
"""generate.py [--check] makes the core of the Cargo crate: the files below arraystring/src/proved are the proved sources of ../crates
without what is only for the proof. With --check it writes nothing, prints what differs, and fails if anything does.

A file becomes tokens, each with the blanks and comments before it. The rules leave tokens out, or write others. What no rule names stays
as it is, with its comments, and rustc compiles it or refuses it. A comment before what is left out, or in it, goes with it.

 1. ghosts     `ghost ..`, the clauses `requires` and `ensures`, `impl Model for ..`, `#[tactic(..)]`, `+ Drop` and a derived `Drop` go.
 2. laws       So do the modules `laws` and `integration` (JSON), and statements that call what is imported of `laws`: they help the prover.
 3. counter    So does the module `steps`: the parameter `steps: &mut Steps`, arguments `steps` and `&mut Steps::new()`, and `steps.f(..);`.
 4. counted    `f`, which stands above `f_counted` and only calls it, gets its body. A call of `f_counted` is one of `f`.
 5. paths      `std` is `core`, `crate` and a crate's name a module of `crate::proved`, but for `leaf`, which is by hand.
 6. places     `[u8` behind `mut` or as the type of an `array` is of `leaf::MaybeByte`, which may have no value; `[0; N]` of `leaf::NEW_BYTE`.
 7. fields     A struct with an array is `#[repr(C)]` and has it last: no write into it seems to change a number. A field is `pub(crate)`.
 8. constants  `as_str` and `as_bytes` are `const`: in Rattle an index is none, and in Rust it is `leaf::part_of_length`.
 9. examples   `# Examples` is left out of a comment: it would be a test of rustdoc, which sees no private module.
10. formatter  `fn fmt<W: fmt::Write>(.. fmt::Formatter<W>)` is `fn fmt(.. fmt::Formatter<'_>)`.

The list of the calls that tables make is the same in both languages, so it is copied as it stands: the tests of the core are in the
package of the crate, too, where no source of Rattle is.

An error with its file and line is what looks like one of these and is left over: a word of LEFT, a name that ends with
`_counted`, an example, an `unsafe` without its `SAFETY`, a comment from `/*` on. One thing no rule sees: a proof that reads a zero of
`[0; N]`, which nothing writes in Rust. memcheck sees that, in `rust/shipped`.
"""
import difflib
import re
import sys
from pathlib import Path

# The crates, and the module that each becomes; the modules that are left out, and the one that is by hand.
CRATES = {'arraystring_base': 'base', 'arraystring_core': 'string'}
GONE, BY_HAND = {'laws', 'integration', 'steps'}, 'leaf'
GHOST_TYPES, CONSTANT = {'Steps', 'Model'}, {'as_str', 'as_bytes'}
# The list of calls, below CRATES, and its copy, below OUT.
LIST, COPY = Path('arraystring_tests/src/tests/call_list.rt'), Path('../../tests/core/tables/call_list.rs')
LEFT = {*GONE, *CRATES, *GHOST_TYPES, 'ghost', 'requires', 'ensures', 'tactic', 'Drop', 'std', 'prove', 'prove_eq', 'prove_ne'}
TOKEN = re.compile(r'''
    (?P<gap> (?: \s | //[^\n]* )* )
    (?P<token> [bc]?r(?P<hashes>\#*)".*?"(?P=hashes) | [bc]?"(?:\\.|[^"\\])*" | b?'(?:\\(?:x..|u\{[^}]*\}|.)|[^'\\\n])' | '\w+
      | \w+ | /\* | :: | -> | => | \.\.= | \.\. | . )
''', re.X | re.S)
GHOST_ATTRIBUTES = ('#', '[', 'tactic'), ('#', '!', '[', 'tactic'), ('#', '[', 'derive', '(', 'Drop', ')', ']')
OPEN, CLOSE = {'(', '[', '{'}, {')', ']', '}'}
WORD = re.compile(r'\w+')


class Tokens(list):
    """A file as [gap, text, line] of each token. A gap has the blanks and comments before it."""

    def __init__(self, path, text):
        self.path, line = path, 1
        for match in TOKEN.finditer(text):
            line += match['gap'].count('\n')
            self.append([match['gap'], match['token'], line])
            if match['token'] == '/*':
                self.refuse(-1, 'a comment that does not begin with `//`')
            line += match['token'].count('\n')
        self.append([text[match.end():], '', line])

    def __str__(self):
        made = ''
        for at, (gap, text, _) in enumerate(self):
            gap = re.sub(r'\n{3,}', '\n\n', gap)
            gap = re.sub(r'^\n\n', '\n', gap) if self.at(at - 1, '{') else gap
            made += (re.sub(r'\n\n(?= *$)', '\n', gap) if text == '}' else gap) + text
        return made.lstrip('\n')

    def refuse(self, at, why):
        raise SystemExit(f'{self.path}:{self[at][2]}: {why}')

    def texts(self, start, end):
        return [text for _, text, _ in self[start:end]]

    def at(self, start, *pattern):
        """Whether the tokens from an index on are these: a text, any text of a set, or a name or number."""
        fits = lambda want, text: want.fullmatch(text) if want is WORD else text in want if isinstance(want, set) else text == want
        return 0 <= start <= len(self) - len(pattern) and all(map(fits, pattern, self.texts(start, start + len(pattern))))

    def all_at(self, *pattern):
        """Where these tokens are, from the end on: what is done to one leaves the others where they are."""
        return [at for at in reversed(range(len(self))) if self.at(at, *pattern)]

    def closing(self, start, opens=OPEN, closes=CLOSE):
        """The index of the bracket that closes the one at an index."""
        depth = 0
        for at in range(start, len(self)):
            depth += self.at(at, opens) - self.at(at, closes)
            if depth == 0:
                return at
        self.refuse(start, 'a bracket stays open')

    def opening(self, at):
        """The index of the bracket that a token is in, or -1."""
        return next((i for i in reversed(range(at)) if self.at(i, OPEN) and self.closing(i) >= at), -1)

    def behind_angles(self, start):
        """The index behind a list between `<` and `>`, if one begins at an index."""
        return self.closing(start, '<', '>') + 1 if self.at(start, '<') else start

    def next(self, start, *wanted):
        """The index of the first of these tokens from an index on that is in no brackets of its own."""
        at = start
        while not self.at(at, set(wanted)):
            if self.at(at, {*CLOSE, ''}):
                self.refuse(start, f'there is no {" or ".join(wanted)}')
            at = self.closing(at) + 1 if self.at(at, OPEN) else at + 1
        return at

    def item(self, at):
        """Where the item or statement begins that a token is in: behind the last `;` or brace."""
        closes_attribute = lambda at: self.at(at, ']') and self.at(self.opening(at) - 2, '#', '!')
        while at > 0 and not self.at(at - 1, {';', '{', '}'}) and not closes_attribute(at - 1):
            at -= 1
        return at

    def is_in_list(self, start, end, brackets):
        """Whether these tokens are a whole item of a list in such brackets."""
        return self.at(start - 1, {brackets[0], ','}) and self.at(end, {brackets[1], ','}) and self.at(self.opening(start), brackets[0])

    def leave_out(self, start, end, keep=False):
        """Leaves tokens out. Of the comments before them `//!` stays, or all with `keep`. One behind them on the same line goes."""
        head, tail = self[start][0], re.sub(r'^ *//[^\n]*', '', self[end][0])
        before = re.match(r' *//.*|', head)[0] if start and tail.startswith('\n') else ''
        self[end][0] = head + tail.lstrip() if keep else before + ''.join(re.findall(r'(?m)^//!.*\n', head)) + tail
        del self[start:end]

    def leave_out_of_list(self, start, end):
        """The same of an item of a list, with the comma before it or else the one behind."""
        if self.at(start - 1, ','):
            self.leave_out(start - 1, end)
        else:
            self.leave_out(start, end + self.at(end, ','), keep=True)


def without_ghosts(t):
    at = 0
    while at < len(t):
        if t.at(at, 'ghost'):
            end = t.next(at, ';') if t.at(at + 1, 'use') else at + 2
            # `ghost name: { .. } = { .. };`, and `ghost name: { .. },` of a struct
            while t.at(end, {':', '='}, '{'):
                end = t.closing(end + 1) + 1
            if end == at + 2 or not t.at(end, {';', ','}):
                t.refuse(at, 'a `ghost` of a form that no rule names')
            t.leave_out(at, end + 1)
        elif t.at(at, {'requires', 'ensures'}):
            body = at + 1 + t.at(at + 1, WORD)
            if not t.at(body, '{'):
                t.refuse(at, 'a clause of a form that no rule names')
            t.leave_out(at, t.closing(body) + 1)
            t[at][0] = t[at][0] if '//' in t[at][0] else ' '
        elif any(t.at(at, *form) for form in GHOST_ATTRIBUTES):
            t.leave_out(at, t.closing(t.next(at, '[')) + 1, keep=t.at(at + 1, '['))
        elif t.at(at, 'Drop') and t.is_in_list(at, at + 1, '()'):
            t.leave_out_of_list(at, at + 1)
        elif t.at(at, '+', 'Drop'):
            t.leave_out(at, at + 2)
        else:
            at += 1
    for at in t.all_at('Model', 'for'):
        t.leave_out(t.item(at), t.closing(t.next(at, '{')) + 1)


def without_modules(t, counted):
    """Leaves out what is not there, and says what the file imports of `laws`."""
    facts = set()
    for at in sorted(t.all_at('use') + t.all_at('mod', WORD, ';'), reverse=True):
        end = t.next(at, ';')
        names = t.texts(at, end)
        path = names[:names.index('{')] if '{' in names else names
        if GONE & set(path) or t.at(at, 'mod', BY_HAND) or path[-1] in GHOST_TYPES:
            if 'laws' in path:
                facts |= {t[i][1] for i in range(at + len(path) - 1, end) if t.at(i, WORD) and not t.at(i + 1, 'as')}
            t.leave_out(t.item(at), end + 1)
            continue
        for i in reversed(range(at, end)):
            if t.at(i, counted | GHOST_TYPES) and t.is_in_list(i, i + 1, '{}'):
                t.leave_out_of_list(i, i + 1)
        end = t.next(at, ';')
        if t.at(end - 3, '{', WORD, '}') and not t.at(end - 2, 'self'):
            del t[end - 1], t[end - 3]
    return facts


def without_facts(t, facts):
    for at in t.all_at(facts, '('):
        end = t.closing(at + 1)
        if t.item(at) != at or not t.at(end + 1, ';') or not all(t.at(i, WORD) or t.at(i, {',', '.', '&'}) for i in range(at + 2, end)):
            t.refuse(at, f'`{t[at][1]}` is of `laws`, and not called in a statement of its own with names for arguments')
        t.leave_out(at, end + 2)


def without_counter(t):
    counting = set()
    for at in t.all_at('steps', ':', '&', 'mut', 'Steps'):
        body = t.next(t.closing(t.opening(at)) + 1, '{', ';')
        counting |= {id(token) for token in [*t[at:at + 5], *t[body:t.closing(body)]]}
    for at in t.all_at('steps', '.', WORD, '('):
        end = t.closing(at + 3)
        is_statement = t.item(at) == at and t.at(end + 1, ';')
        if id(t[at]) in counting and is_statement and all(t.at(i, WORD) or t.at(i, ',') for i in range(at + 4, end)):
            t.leave_out(at, end + 2)
    for form in ('steps', ':', '&', 'mut', 'Steps'), ('&', 'mut', 'Steps', '::', 'new', '(', ')'), ('steps',):
        for at in t.all_at(*form):
            if t.is_in_list(at, at + len(form), '()') and (t.at(at, '&') or id(t[at]) in counting):
                t.leave_out_of_list(at, at + len(form))


def function(t, at):
    """Where the function of a `fn` begins, its body and its end, and its parameters."""
    first = t.behind_angles(at + 2)
    body = t.next(first, '{', ';')
    return t.item(at), body, t.closing(body) + 1, [t[i][1] for i in range(first, t.closing(first)) if t.at(i, WORD, ':')]


def uncounted(t, counted):
    while found := t.all_at('fn', counted):
        name = t[found[0] + 1][1]
        start, body, end, parameters = function(t, found[0])
        beside = [at for at in t.all_at('fn', name.removesuffix('_counted')) if t.opening(at) == t.opening(found[0])]
        if len(beside) != 1 or beside[0] > start:
            t.refuse(body, f'`{name}` is not the counted form of one function above it')
        _, plain_body, plain_end, plain_parameters = function(t, beside[0])
        call = f'{name} ( {" , ".join(parameters)} )'.split()
        calls = [['{', *by, *call, *ends, '}'] for by in ([], ['self', '.'], ['Self', '::']) for ends in ([], [';'])]
        if parameters != plain_parameters or t.texts(plain_body, plain_end) not in [*calls, t.texts(body, end)]:
            t.refuse(plain_body, f'more than a call of `{name}` with the same parameters')
        taken = t[body:end]
        t.leave_out(start, end)
        t[plain_body:plain_end] = taken
    for at in t.all_at(counted, '(') + t.all_at(counted, '::'):
        t[at][1] = t[at][1].removesuffix('_counted')


def in_rust(t, module):
    for at in range(len(t)):
        if t.at(at, 'std', '::'):
            t[at][1] = 'core'
        elif t.at(at, {'crate', *CRATES}, '::'):
            t[at][1] = 'crate' if t.at(at + 2, BY_HAND) else f'crate::proved::{CRATES.get(t[at][1], module)}'
        elif t.at(at, 'mut', '[', 'u8') or t.at(at, ':', '[', 'u8') and t.at(at - 1, 'array'):
            t[at + 2][1] = f'crate::{BY_HAND}::MaybeByte'
        elif t.at(at, '[', '0', ';'):
            t[at + 1][1] = f'crate::{BY_HAND}::NEW_BYTE'
        elif t.at(at, 'fn', CONSTANT, '(', '&', 'self', ')') and not t.at(at - 1, 'const'):
            t[at][1] = 'const fn'
        elif t.at(at, 'fmt', '<', 'W', ':', 'fmt', '::', 'Write', '>'):
            del t[at + 1:at + 8]
        elif t.at(at, 'Formatter', '<', 'W', '>'):
            t[at + 2][1] = "'_"


def with_arrays_last(t):
    for at in t.all_at('struct'):
        body = t.next(at, '{', ';')
        if t.at(body, ';') and ';' in t.texts(at, body):
            t.refuse(at, 'a struct with an array whose fields have no names')
        field, fields = body + 1, []
        while t.at(body, '{') and not t.at(field, '}'):
            colon = end = t.next(field, ':')
            if t.at(colon - 2, {'{', ',', ']'}):
                t[colon - 1][1] = f'pub(crate) {t[colon - 1][1]}'
            while not t.at(end, {',', '}'}):
                end = t.behind_angles(end) if t.at(end, '<') else t.closing(end) + 1 if t.at(end, OPEN) else end + 1
            fields.append((t.at(colon + 1, '['), [*t[field:end], ['', ',', t[end][2]]]))
            field = end + t.at(end, ',')
        if any(is_array for is_array, _ in fields):
            ordered = sorted(fields, key=lambda it: it[0])
            for i in range(t.item(at), field + 1):
                if i < at and t.at(i, {'Debug', 'Hash', 'Ord', 'PartialOrd'}):
                    t.refuse(i, f'a derived `{t[i][1]}`, which follows the order of the fields, and shows places')
                if i > body and ordered != fields and re.match(r' *//', t[i][0]):
                    t.refuse(i, 'a comment behind a field, where fields change places')
            t[body + 1:field] = [token for _, tokens in ordered for token in tokens]
            head = next(i for i in range(t.item(at), at + 1) if t.at(i, {'pub', 'struct'}))
            t[head][1] = f'#[repr(C)]\n{t[head][1]}'


def without_examples(t):
    doc = r'^ *//[/!]'
    section = rf'{doc} # Examples *\n(?:{doc} ```(?:.*\n)+?{doc} ``` *\n|{doc}(?! #+ ).*\n)*'
    for at, token in enumerate(t):
        token[0] = re.sub(rf'(?m){doc} *\n(?!{doc})', '', re.sub(f'(?m){section}', '', token[0]))
        if any(kind != 'text' for kind in re.findall(rf'(?m){doc} *```(.*)$', token[0])[::2]):
            t.refuse(at, 'an example is left, which rustdoc would run')


def refuse_what_is_left(t):
    for at, (_, text, _) in enumerate(t):
        if text in LEFT or text.endswith('_counted'):
            t.refuse(at, f'`{text}` is left, and no rule names what it stands in')
        if text == 'unsafe' and '// SAFETY: ' not in ''.join(gap for gap, _, _ in t[t.item(at):at + 1]):
            t.refuse(at, 'an `unsafe` without its `SAFETY` before it')


def made(crates):
    """The text of each file, by its path below arraystring/src/proved."""
    sources, counted = {}, set()
    texts = {COPY: (crates / LIST).read_text(encoding='utf8')}
    for crate, module in CRATES.items():
        folder = crates / crate / 'src'
        for path in sorted(folder.rglob('*.rt')):
            place = path.relative_to(folder).with_suffix('')
            if not {*GONE, BY_HAND} & set(place.parts):
                t = sources[path] = Tokens(path, path.read_text(encoding='utf8'))
                t.module, t.place = module, Path(module) / ('mod.rs' if str(place) == 'lib' else f'{place}.rs')
                counted |= {t[at + 1][1] for at in t.all_at('fn', WORD) if t[at + 1][1].endswith('_counted')}
    for path, t in sources.items():
        without_ghosts(t)
        without_facts(t, without_modules(t, counted))
        without_counter(t)
        uncounted(t, counted)
        in_rust(t, t.module)
        with_arrays_last(t)
        without_examples(t)
        refuse_what_is_left(t)
        texts[t.place] = f'// Made from crates/{path.relative_to(crates)} by rust/generate.py: change that, and run this.\n{t}'
    return texts


def main(arguments):
    here = Path(__file__).resolve().parent
    out = here / 'arraystring/src/proved'
    wanted, there = made(here.parent / 'crates'), {path.relative_to(out): path.read_text(encoding='utf8') for path in out.rglob('*.rs')}
    there |= {COPY: (out / COPY).read_text(encoding='utf8')} if (out / COPY).exists() else {}
    stale = sorted(path for path in {*wanted, *there} if wanted.get(path) != there.get(path))
    if '--check' in arguments:
        for path in stale:
            texts = [files.get(path, '').splitlines(keepends=True) for files in (there, wanted)]
            sys.stdout.writelines(difflib.unified_diff(*texts, str(out / path), 'what rust/generate.py makes'))
        sys.exit(bool(stale))
    for path in there.keys() - wanted:
        (out / path).unlink()
    for path, text in wanted.items():
        (out / path).parent.mkdir(parents=True, exist_ok=True)
        (out / path).write_text(text, encoding='utf8')
    print(f'{len(wanted)} files, of which {len(stale)} were stale')


if __name__ == '__main__':
    main(sys.argv[1:])
