"""When `tools/run check` fails: it is run over stand-ins for the commands and for their tests."""
import re
import subprocess
import sys

from planted import TreeTest
from repository import ROOT, read

COMMAND, TEST = "def main(arguments, root):\n    return {}\n".format, "tools/test_one.py"
ONE = "import unittest\n\nclass One(unittest.TestCase):\n    def test_one(self):\n        pass\n"
COMMANDS = re.findall(r"(?m)^    (\w+) \* ", read(ROOT / "tools/run"))


class Run(TreeTest):
    FILES = {
        **{f"tools/{it}": read(ROOT / "tools" / it) for it in ("run", "repository.py")},
        **{f"tools/{it}.py": COMMAND("False") for it in COMMANDS},
        TEST: ONE,
    }

    def status(self, *changes):
        with self.changed(*changes):
            return subprocess.run([sys.executable, self.root / "tools/run", "check"], capture_output=True).returncode

    def test_check_fails_where_a_command_fails_or_a_test_or_where_there_is_none(self):
        self.assertEqual(self.status(), 0)
        for name, outcome in [*((it, "True") for it in COMMANDS), (COMMANDS[0], "'it is so'")]:
            self.assertEqual(self.status((f"tools/{name}.py", COMMAND(outcome))), 1, name)
        without = (ONE.replace("pass", "self.fail()"), ONE.replace("pass", "raise ValueError"), ONE.replace("test_one", "one"), None, "import no\n")
        for text in without:
            self.assertEqual(self.status((TEST, text)), 1, text)
