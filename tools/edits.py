"""The wrong bodies of a crate and their controls, as they are kept and as `rt` reads them.

Those that `rt ci` tries are files in must-fail/, FUNCTION.WHAT_IS_WRONG.edit. The others stand in the crate's file
more-wrong-bodies.edits, below the headings `## FUNCTION` and `### WHAT_IS_WRONG`, with an empty line in front of each heading.

A wrong body has lines `file: PATH`, `old: TEXT` and `new: TEXT`, each on what the ones before made. Its control has the text of the
line `# right: TEXT` behind a `new:` in the place of that, or the same text where there is none. Lines `# ..` above say why. In the
crate's file a text may also stand in indented lines below its word: `rt` gets them as one line.
"""
import re
from collections import namedtuple

from repository import read

# Where the wrong bodies of a crate stand that `rt ci` does not try.
MORE = "more-wrong-bodies.edits"
TEXT = r" ?(.*\n(?: .*\n)*)"
PART = re.compile(rf"file: ?(.+)\n|old:{TEXT}new:{TEXT}(?:# right:{TEXT})?")


def in_one_line(text):
    """A text of some lines as `rt` reads it."""
    first, *more = text.splitlines()
    return " ".join([*[first] * bool(first or not more), *map(str.strip, more)])


class Edit(namedtuple("Edit", "folder name text heading")):
    """A wrong body of the crate in a folder; the heading above it, which is None in must-fail/."""

    def parts(self):
        """Its replacements: the file, what is old and new there, and what a control has in the place of that. A ValueError says
        why one can't be read."""
        path, rest = "", re.sub(r"\A(# (?!right:).*\n)+", "", self.text)
        if not rest:
            raise ValueError("no wrong body stands here")
        while rest:
            part = PART.match(rest)
            if not part or not (part[1] or path):
                raise ValueError(f"no line of a wrong body: {rest.splitlines()[0]}")
            path, rest = part[1] or path, rest[part.end():]
            if not part[1]:
                old, new, right = (it if it is None else in_one_line(it) for it in part.group(2, 3, 4))
                yield path, old, new, right

    def applied(self, is_right):
        """The files of its crate that it changes, or its control, each with its text after. A ValueError says why it can't be."""
        texts = {}
        for path, old, new, right in self.parts():
            file = self.folder / path
            text = texts.get(file) or (read(file) if file.is_file() else "")
            if text.count(old) != 1:
                raise ValueError(f"{path} does not have this once: {old}")
            texts[file] = text.replace(old, new if right is None or not is_right else right)
        return texts

    def has_control(self):
        return bool(re.search("(?m)^# right:", self.text))

    def for_rt(self):
        """Its lines as `rt must-fail` reads them, and those of its control, which `rt` passes over."""
        return "".join(f"file: {path}\nold: {old}\nnew: {new}\n" + (f"# right: {right}\n" if right is not None else "")
                       for path, old, new, right in self.parts())


def of_file(folder):
    """The wrong bodies in the crate's file. What stands there and is none can't be read as one, or has no function's name."""
    head, *functions = f"\n{read(folder / MORE)}".split("\n## ")
    if re.search(r"(?m)^(?!# |$)", head):
        yield Edit(folder, f"above all headings of {MORE}", head, "")
    for function in functions:
        heading, *bodies = function.split("\n\n### ")
        for body in bodies or ["\n"]:
            what, _, text = body.partition("\n")
            yield Edit(folder, f"{heading.strip()}.{what}", f"{text.rstrip()}\n".lstrip("\n"), heading.strip())


def wrong_bodies(folder):
    """The wrong bodies of a crate: those that `rt ci` tries, and those that are tried before a release."""
    files = sorted(folder.glob("must-fail/*.edit"))
    return [Edit(folder, it.stem, read(it), None) for it in files] + (list(of_file(folder)) if (folder / MORE).exists() else [])
