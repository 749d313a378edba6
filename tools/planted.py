"""Small trees in which tests plant mistakes, and what the commands say of them."""
import io
import os
import re
import tempfile
import unittest
from contextlib import contextmanager, redirect_stderr, redirect_stdout
from pathlib import Path
from unittest import mock

from repository import read


class TreeTest(unittest.TestCase):
    """A test with a small repository of its own, which begins with FILES: texts by their paths."""

    FILES = {}

    def setUp(self):
        room = tempfile.TemporaryDirectory(prefix="arraystring-")
        self.addCleanup(room.cleanup)
        self.root = Path(room.name).resolve()
        for path, text in self.FILES.items():
            self.write(path, text)

    def write(self, path, text):
        """Writes a file of the tree, or removes it where the text is None."""
        file = self.root / path
        file.parent.mkdir(parents=True, exist_ok=True)
        if text is None:
            file.unlink(missing_ok=True)
        else:
            file.write_text(text, encoding="utf-8")

    def write_program(self, path, text):
        self.write(path, text)
        (self.root / path).chmod(0o755)

    def stand_in_for_rt(self, text):
        """A program of this text is what `rt` names, to the end of the test."""
        self.write_program("bin/rt", text)
        paths = mock.patch.dict(os.environ, {"PATH": f"{self.root}/bin:{os.environ['PATH']}"})
        paths.start()
        self.addCleanup(paths.stop)

    @contextmanager
    def changed(self, *changes):
        """Files are changed for as long as it is needed: by a path, an expression and what is put in the place of what it finds,
        or by a path and the whole text, which is None where there is to be no such file."""
        kept = [(path, read(self.root / path) if (self.root / path).exists() else None) for path, *_ in changes]
        try:
            for path, *texts in changes:
                if len(texts) == 2:
                    text, count = re.subn(texts[0], texts[1], read(self.root / path), flags=re.M)
                    self.assertTrue(count, (path, texts[0]))
                else:
                    [text] = texts
                self.write(path, text)
            yield
        finally:
            for path, text in reversed(kept):
                self.write(path, text)

    def told(self, command, *words):
        """Whether a command fails, and what it says."""
        with redirect_stdout(io.StringIO()) as said, redirect_stderr(said):
            outcome = command.main(list(words), self.root)
        return bool(outcome), said.getvalue() + (outcome if isinstance(outcome, str) else "")

    def assert_finds(self, command, *plants, words=()):
        """Each is what the command has to say of some changes, and these. Where nothing is due it says what it said before."""
        before = self.told(command, *words)
        for wanted, *changes in plants:
            with self.subTest(wanted, changes=changes), self.changed(*changes):
                said = self.told(command, *words)
                is_new = said[0] and wanted in said[1] and wanted not in before[1]
                self.assertTrue(is_new if wanted else said == before, said[1])
