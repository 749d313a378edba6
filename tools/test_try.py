"""What the try of the program refuses. That it takes the program itself, `.ci/run` shows."""
import re
import subprocess

from planted import TreeTest
from repository import ROOT

TRY = ROOT / "crates/arraystring_cli/try"


class Try(TreeTest):
    def passed(self, body):
        """The cases that a program passes which does this alone."""
        self.write_program("program", f"#!/bin/sh\n{body}\n")
        run = subprocess.run([TRY, self.root / "program"], stdout=subprocess.PIPE, stderr=subprocess.STDOUT, encoding="utf-8",
                             errors="replace")
        found = re.findall(r"(?m)^ok +(.*)", run.stdout)
        self.assertEqual((run.returncode, run.stdout.splitlines()[-1]), (1, f"try: 494 cases, {494 - len(found)} differ"))
        return found

    def test_each_case_compares_the_status_the_output_and_the_errors(self):
        self.assertEqual(self.passed("exit 7"), [])
        # (each that is to end well has an output)
        self.assertEqual(self.passed("exit 0"), [])
        self.assertEqual([it for it in self.passed("exit 2") if "with errors into" not in it], [])

    def test_a_program_that_is_not_there_is_refused(self):
        run = subprocess.run([TRY, "/no_such_program"], stdout=subprocess.PIPE, stderr=subprocess.STDOUT, encoding="utf-8")
        self.assertEqual((run.returncode, run.stdout), (1, "try: /no_such_program is not built\n"))
