"""Makes each call that takes memory while one growth after the other is refused, and compares what came back with what is worked
out by hand: the status or the value, standard output, standard error, and the texts that are there then.

It alone sees, for example, that `run` takes memory where it is given no command, or takes it twice: every contract allows that memory runs
out at any time.

tools/run refused [CRATE..]

The crates are arraystring_cli, the program with scripts of each kind of reply at each word, and memory_tests, a program that
makes one call of a library and prints what came back. `rt try --fail-alloc N` refuses the Nth allocation of a run and no
other; it builds for each N, and then runs all cases of a crate. It proves nothing.

It says "allocations: at least 0" of any run, so how many growths a call has is known only from where refusals end. So each case has
its first growth refused, its second, and so on to one past the most of any case. A call with a growth less than is written down here
is not refused at its last, and one with a growth more is refused past it. With each case stand its growths, in order, and why they
are so many.

The program takes a build for each number. memory_tests takes one for all: it makes an allocation for each `+` behind its word, before
the call, so that the one that is refused is any growth of the call.
"""
import re
import subprocess
import tempfile
from concurrent.futures import ThreadPoolExecutor
from pathlib import Path
from typing import NamedTuple

# How many builds there are at a time; each takes 750 MB, and a processor for half a minute.
JOBS = 3


class Answer(NamedTuple):
    """What came back: the exit status (or what rt says in its place), standard output and standard error."""
    status: object
    output: str
    errors: str


class Case(NamedTuple):
    """A run of a program. Each growth has a name and the answer if it is refused; the ordinary answer is that of no refusal."""
    name: str
    words: list
    script: str
    growths: list
    ordinary: Answer

    def due(self, number):
        """The answer if the allocation of this number is refused."""
        return self.growths[number - 1][1] if number <= len(self.growths) else self.ordinary


# The growths of the program:
# - The list of bytes of the input grows at a read for which it has no room. A read asks for 8,192 bytes and a file gives them, so
#   a script of 1 to 8,192 bytes is one growth, and one of up to 16,384 two.
# - The list of commands grows where it is full: at the first line to room for 4, as std does for items of up to 1,024 bytes, at
#   the fifth to 8. Lines up to a bad one are in it.
# - The list of replies is made at once with room for all, and only if there is a command. After it nothing takes memory.
INPUT, COMMANDS, REPLIES = "the input", "the commands", "the replies"
SHORT = [INPUT, COMMANDS, REPLIES]  # a script of one to four lines

# A name, the script, its growths, and the status, the output and the line on standard error, with {} for the capacity.
SCRIPTS = [
    ("done", "push_str ab\n", SHORT, (0, "done\nfinal ab\n", "")),
    ("char", "push_str a🤔\npop\n", SHORT, (0, "done\nchar 🤔\nfinal a\n", "")),
    ("no_char", "pop\n", SHORT, (0, "no char\nfinal \n", "")),
    ("text", "push_str aé\nsplit_off 1\n", SHORT, (0, "done\ntext é\nfinal a\n", "")),
    ("no_text", "get 0 9\n", SHORT, (0, "no text\nfinal \n", "")),
    # (five lines: the commands grow twice)
    ("number", "capacity\n" * 5, [INPUT, COMMANDS, COMMANDS, REPLIES], (0, "number {}\n" * 5 + "final \n", "")),
    ("refused", "push_str é\nremove 1\n", SHORT, (0, "done\nrefused Utf8\nfinal é\n", "")),
    # (9,000 bytes: the input grows twice)
    ("long", f"try_push_str {'x' * 4486}\n" * 2, [INPUT, INPUT, COMMANDS, REPLIES],
     (0, "refused OutOfBounds\n" * 2 + "final \n", "")),
    ("nothing", "", [], (0, "final \n", "")),
    # (what is refused after a bad line would be met is not reached)
    ("bad_first", "Len\nlen\n", [INPUT], (2, "", "bad line 1\n")),
    ("bad_last", "len\nLen\n", [INPUT, COMMANDS], (2, "", "bad line 2\n")),
]


def program_cases():
    """Those of arraystring_cli. A refused growth ends the program, and nothing was written."""
    for word, capacity in (("small", 23), ("cache", 63), ("max", 255)):
        for name, script, growths, (status, output, errors) in SCRIPTS:
            ordinary = Answer(status, output.replace("{}", str(capacity)), errors)
            refused = Answer(3, "", "out of memory\n")
            answers = [(it, refused) for it in growths]
            yield Case(f"{word}_{name}", [word], script, answers, ordinary)
    # (another word takes no memory, not for its own text)
    yield Case("another_word", ["large"], "len\n", [], Answer(2, "", "usage: arraystring_run small or cache or max\n"))


# What the script of memory_tests writes. It has 31 bytes, of which a read gives at most 16, and five lines: so the input grows
# twice, to 16 and to 32 bytes, the commands twice, to 4 and to 8, and the replies are made once.
WRITTEN = r'"done\nnumber 2\nchar b\ntext a\nnumber 1\nfinal a\n"'
PLAYED = [INPUT, INPUT, COMMANDS, COMMANDS, REPLIES]
# Its users, and those that are there when a, p and x are put in. A node of std's tree has room for 15. So the first user takes a
# leaf. The 16th, p, finds that full: it takes a root and a leaf for the upper half, i to o. The 24th, x, finds that leaf full
# again, with i to w, and takes a leaf more; the root has room.
USERS = "aAbBcCdDeEfFgGhHiIjJkKlLmMnNoOpPqQrRsStTuUvVwWxX"
TREE = [("the first leaf", "a", ""), ("the root", "p", USERS[:30]), ("its second leaf", "p", USERS[:30]),
        ("its third leaf", "x", USERS[:46])]
INSERTED = f"insert: the users are {USERS}\n"

# A call, its growths with the line for each if it is refused, and the ordinary line.
CALLS = [
    # (a list of replies is made at once with room for all; with no command there is none)
    ("run", [(REPLIES, "run: refused, the text is ab\n")], "run: 3 replies, the text is abccc\n"),
    ("run_nothing", [], "run: 0 replies, the text is ab\n"),
    # (two lists, before the first command of either run)
    ("run_both", [(it, "run_both: refused, the texts are ab and ab\n") for it in ("the second's replies", "the first's")],
     "run_both: 3 and 3 replies, the texts are abccc and abcc\n"),
    ("run_both_nothing", [], "run_both: 0 and 0 replies, the texts are ab and ab\n"),
    # (a `String` of the text, made at once; that of no text takes no memory)
    ("to_value", [("the text", "to_value: refused\n")], 'to_value: "né"\n'),
    ("to_value_nothing", [], 'to_value: ""\n'),
    ("insert", [(it, f"insert: {user} is refused, the users are {users}\n{INSERTED}") for it, user, users in TREE], INSERTED),
    ("play", [(it, 'play: Err(Memory), the output is ""\n') for it in PLAYED], f"play: Ok(()), the output is {WRITTEN}\n"),
    ("serve", [(it, 'serve: 3, the output is "" in no write, the errors are "out of memory\\n"\n') for it in PLAYED],
     f'serve: 0, the output is {WRITTEN} in one write, the errors are ""\n'),
]


def call_cases():
    """Those of memory_tests."""
    for name, growths, line in CALLS:
        yield Case(name, [name], "", [(it, Answer(0, refused, "")) for it, refused in growths], Answer(0, line, ""))


CASES = {"arraystring_cli": list(program_cases()), "memory_tests": list(call_cases())}


def answers(output, errors):
    """What `rt try --cases` says of each case. It prints outputs below lines `== NAME`, and what a case writes on standard error
    behind a line about allocations and before the line `case=NAME` with its status."""
    outputs = dict(re.findall(r"(?ms)^== (\S+)\n(.*?)(?=^== |\Z)", output))
    parts = re.split(r"(?m)^case=(\S+) (.*)\n", errors)
    for said, name, how in zip(parts[::3], parts[1::3], parts[2::3]):
        status = re.fullmatch(r"run=ended status=(\d+) .*", how)
        yield name, Answer(int(status[1]) if status else how, outputs.get(name), re.sub(r"^allocations: .*\n", "", said))


def differing(folder, tries):
    """What differs in one build of the crate in a folder, in which each case of the tries has its growth of a number refused."""
    last = max(number for _, number in tries)
    with tempfile.TemporaryDirectory(prefix="arraystring-") as room:
        for case, number in tries:
            words = [f"{it}{'+' * (last - number)}\n" for it in case.words]
            Path(room, f"{case.name}_at_{number}").write_text(case.script, encoding="utf-8")
            Path(room, f"{case.name}_at_{number}.args").write_text("".join(words), encoding="utf-8")
        run = subprocess.run(["rt", "try", "--cases", room, "--fail-alloc", str(last)], cwd=folder, stdin=subprocess.DEVNULL,
                             stdout=subprocess.PIPE, stderr=subprocess.PIPE, encoding="utf-8", errors="replace")
    told = dict(answers(run.stdout, run.stderr))
    if run.returncode or not told:
        said = (run.stderr.splitlines() or ["it says nothing"])[-1]
        yield f"{folder.name} at {last}: rt try ends with {run.returncode}: {said}"
    for case, number in tries if told else []:
        answer = told.get(f"{case.name}_at_{number}")
        if answer != case.due(number):
            yield f"{folder.name} {case.name} at {number}: {answer}, where due is {case.due(number)}"


def show(crate, cases):
    """Prints the growths of the cases, those that have the same ones together."""
    names = {}
    for case in cases:
        names.setdefault(", ".join(it for it, _ in case.growths) or "none", []).append(case.name)
    for growths, those in names.items():
        print(f"{crate}: {', '.join(those)}: {growths}")


def main(arguments, root):
    unknown = sorted(set(arguments) - set(CASES))
    if unknown:
        return f"{unknown[0]} is none of {', '.join(CASES)}"
    tried = {it: CASES[it] for it in CASES if it in (arguments or CASES)}
    runs = []
    for crate, cases in tried.items():
        show(crate, cases)
        beyond = max(len(it.growths) for it in cases) + 1
        tries = [[(case, number) for case in cases] for number in range(1, beyond + 1)]
        runs += [(root / "crates" / crate, it) for it in ([sum(tries, [])] if crate == "memory_tests" else tries)]
    with ThreadPoolExecutor(JOBS) as pool:
        faults = [fault for told in pool.map(lambda it: list(differing(*it)), runs) for fault in told]
    print("".join(f"{it}\n" for it in faults), end="")
    growths = [len(case.growths) for cases in tried.values() for case in cases]
    print(f"refused: {sum(growths)} growths of {len(growths)} calls, in {len(runs)} builds, {len(faults)} differ")
    return bool(faults)
