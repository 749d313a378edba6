"""What `tools/run refused` sees, over a stand-in for `rt`; and that its table has each call."""
import re
from concurrent.futures import ThreadPoolExecutor
from unittest import mock

import refused
from planted import TreeTest
from refused import Answer, Case
from repository import ROOT, read

# Answers as `rt try --cases FOLDER --fail-alloc NUMBER`: the case `taken` takes memory three times, goes on without the first,
# and else ends with 3; `none` takes none. Each takes memory for each `+` before. A mistake stands in the place of {}.
STAND_IN = """\
#!/bin/sh
[ "$1 $2 $4" = 'try --cases --fail-alloc' ] || exit 2
case $3 in */arraystring-*) ;; *) exit 2 ;; esac
ends=0
for file in "$3"/*.args; do
    case=$(basename "$file" .args) before=$(head -n 1 "$file" | tr -dc +)
    at=${case%%_at_*}$(($5 - ${#before})) how=ended status=0 errors='' output=$(tr -d + < "$file" | cat - "$3/$case")
    case $at in taken2 | taken3) status=3 output='' errors='out of memory' ;; esac
    {}
    echo "== $case"
    [ -z "$output" ] || echo "$output"
    echo 'allocations: at least 0' >&2
    [ -z "$errors" ] || echo "$errors" >&2
    echo "case=$case run=$how status=$status runners=1 proved=no" >&2
done
exit $ends
"""
PLAYED, WANTING = Answer(0, "small\nlen\n", ""), Answer(3, "", "out of memory\n")
STOOD = [Case("taken", ["small"], "len\n", [("first", PLAYED), ("second", WANTING), ("third", WANTING)], PLAYED),
         Case("none", ["a", "b"], "", [], Answer(0, "a\nb\n", ""))]
STOOD_FOR = {"stand_in": STOOD, "memory_tests": STOOD, "not_asked": [Case("none", [], "", [], Answer(0, "", ""))]}
# A crate, and its builds.
HOW = (("stand_in", 4), ("memory_tests", 1))


class Refused(TreeTest):
    FILES = {f"crates/{it}/src/main.rt": "" for it in STOOD_FOR}

    def told_of(self, mistake=":", crate="stand_in", builds=4):
        """Whether the command fails over a stand-in with a mistake, and the lines that tell where it differs."""
        self.stand_in_for_rt(STAND_IN.replace("{}", mistake))
        with mock.patch.object(refused, "CASES", STOOD_FOR), \
                mock.patch.object(refused, "ThreadPoolExecutor", mock.Mock(wraps=ThreadPoolExecutor)) as pool:
            failed, said = self.told(refused, crate)
        pool.assert_called_once_with(3)
        lines = said.splitlines()
        self.assertEqual(lines[:2], [f"{crate}: taken: first, second, third", f"{crate}: none: none"])
        self.assertEqual(lines[-1], f"refused: 3 growths of 2 calls, in {builds} builds, {len(lines) - 3} differ")
        return failed, lines[2:-1]

    def test_right_answers_pass(self):
        for how in HOW:
            self.assertEqual(self.told_of(":", *how), (False, []))

    def test_a_wrong_answer_at_one_number_is_seen(self):
        for at, mistake in (("taken at 2", "status=0"), ("taken at 3", "errors=''"), ("taken at 4", "output=''"), ("taken at 2", "how=fault"),
                            ("none at 1", "status=3"), ("none at 4", "continue")):
            for crate, builds in HOW:
                failed, lines = self.told_of(f"[ $at != {at.replace(' at ', '')} ] || {mistake}", crate, builds)
                self.assertEqual((failed, len(lines)), (True, 1), mistake)
                self.assertTrue(lines[0].startswith(f"{crate} {at}: "), lines)

    def test_a_growth_less_or_more_and_one_that_never_fails_are_seen(self):
        whole, less = "status=0 errors='' output=$(printf 'small\\nlen')", "status=3 output='' errors='out of memory'"
        for crate, builds in HOW:
            for due, at, mistake in (("23", "taken[23]", whole), ("3", "taken3", whole), ("4", "taken4", less)):
                told = self.told_of(f"case $at in {at}) {mistake} ;; esac", crate, builds)[1]
                self.assertEqual("".join(re.match(rf"{crate} taken at (\d): ", it)[1] for it in told), due)

    def test_a_run_of_rt_that_fails_is_told(self):
        for mistake, count, said in (("echo 'usage' >&2; echo 'no such flag' >&2; exit 2", 4, "2: no such flag"),
                                     ("exit 0", 4, "0: it says nothing"), ("[ $5 != 3 ] || ends=4", 1, "4: case=taken_at_3 run=ended .*")):
            failed, lines = self.told_of(mistake)
            self.assertEqual((failed, len(lines)), (True, count))
            self.assertRegex(lines[-1], rf"^stand_in at \d: rt try ends with {said}$")

    def test_each_call_that_memory_can_run_out_in_is_refused(self):
        named = re.search(r"Memory can run out in (.*?);", read(ROOT / "docs/trust.md"), re.S)[1]
        cases = [it.name for it in refused.CASES["memory_tests"]]
        self.assertEqual({it.rpartition("::")[2] for it in re.findall("`(.*?)`", named)}, {it.removesuffix("_nothing") for it in cases})
        self.assertEqual(re.findall(r'(?m)^    "(\w+)",$', read(ROOT / "crates/memory_tests/src/main.rt")), cases)
