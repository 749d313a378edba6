"""Tries the controls: right bodies of the form of wrong ones, which prove where those must not.

It alone sees, for example, that a wrong body is refused for its form, as one with a branch for which a stored answer has no case: then the
right body of the same form is refused, too.

tools/run controls [CRATE..]             those of these crates, or of all
tools/run controls CRATE --edits NAME    of the function NAME alone, and its wrong bodies, with what refuses each

It is run when a control is written, and before a release; CONTRIBUTING.md has the day of the last whole run. How a wrong body and
its control are written, the head of tools/edits.py says.

Each is checked in a copy of the repository among the temporary files, with what earlier checks kept in out/; no other `rt` may
write there while the copy is made. A control takes some seconds. It fails where a control is refused, where a wrong body or its crate
is not as it has to be, and where one can't be read.
"""
import re
import shutil
import subprocess
import sys
import tempfile
from contextlib import contextmanager
from pathlib import Path

from edits import wrong_bodies
from repository import crates


def rt(folder, *words):
    """What `rt` has done in a folder, and has said."""
    return subprocess.run(["rt", *words], cwd=folder, stdin=subprocess.DEVNULL, stdout=subprocess.PIPE, stderr=subprocess.STDOUT,
                          encoding="utf-8", errors="replace")


def checked(folder):
    """Whether `rt check` proves the crate in a folder, and its first message about a goal of src/, or else the first that names a
    place and is no advice on the proof there, or the last line."""
    run = rt(folder, "check")
    lines = run.stdout.strip().splitlines() or ["nothing was said"]
    forms = (r"(note: )?(\./)?src/\S+:\d+:\d+: ", r"(note: )?\S+:\d+:\d+:(?! note:)")
    told = [line for form in forms for line in lines if re.match(form, line)]
    return run.returncode == 0, (told or lines[-1:])[0][:200]


def is_as_due(edit, is_right):
    """Checks a crate of a copy with a wrong body, or with its control: whether it is as it has to be, which is told. The crate is set
    back then, also what it keeps in out/, so that each begins with the same."""
    folder, before = edit.folder, edit.folder.with_name("before")
    try:
        texts = edit.applied(is_right)
    except ValueError as error:
        print(f"{edit.name}: {error}", flush=True)
        return False
    shutil.copytree(folder, before, symlinks=True)
    for file, text in texts.items():
        file.write_text(text, encoding="utf-8")
    is_proved, message = checked(folder)
    shutil.rmtree(folder)
    before.rename(folder)
    kind = "control" if is_right else "wrong body"
    print(f"{folder.name} {edit.name}: the {kind} {'proves' if is_proved else f'is refused: {message}'}", flush=True)
    return is_proved == is_right


def outcomes(copy, named, function):
    """Whether each control of some crates is as it has to be, and each wrong body of a function, if one is named."""
    for crate in named:
        is_proved, message = checked(copy / "crates" / crate)
        if not is_proved:
            print(f"{crate} is not proved: {message}")
            yield False
            continue
        for edit in wrong_bodies(copy / "crates" / crate):
            if not edit.name.startswith(f"{function}." if function else ""):
                continue
            if function:
                yield is_as_due(edit, False)
            if edit.has_control():
                yield is_as_due(edit, True)


@contextmanager
def copied(root, named):
    """A copy of the repository, with what earlier checks of some crates kept."""
    if root in Path(tempfile.gettempdir()).resolve().parents:
        sys.exit("the folder for temporary files is inside the repository, so a copy would copy itself")

    def left_out(folder, names):
        """What a copy does not need: of other crates what their own checks kept is much."""
        is_of_another = folder.endswith("/out") and Path(folder).parent.name not in named
        return {".git", "target", *["incremental"] * is_of_another}.intersection(names)

    with tempfile.TemporaryDirectory(prefix="arraystring-") as room:
        yield Path(shutil.copytree(root, Path(room, "copy"), ignore=left_out, symlinks=True))


def main(arguments, root):
    function = arguments[2] if arguments[1:2] == ["--edits"] and len(arguments) == 3 else ""
    named = arguments[:1] if function else arguments or crates(root)
    unknown = [it for it in named if it not in crates(root)]
    if unknown:
        return f"no crate is named {unknown[0]}"
    with copied(root, named) as copy:
        told = list(outcomes(copy, named, function))
    print(f"{sum(told)} are as they have to be, {len(told) - sum(told)} are not")
    return not all(told) or not told
