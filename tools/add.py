"""Copies the string into another repository, or brings it up to date there.

It alone sees, for example, that README.md names another logic than that of the kit on this machine, with which all would be proved anew.

tools/run add FOLDER             copies `arraystring` and the crates below it into FOLDER, the top of a repository in Rattle
tools/run add FOLDER CRATE..     copies these crates and those below them, as bounded_records
tools/run add                    fails where the logic of `rt version` is another than README.md names, or another page names one, too

Of each crate it copies src/, specs/, proofs/ and LICENSE. What stood there in their place goes, and nothing else does, so that an older
copy becomes the new one, and what a check has kept in out/ stays. Then it writes the line of each into crates.txt, and leaves the others.
"""
import re
import shutil
import subprocess
from pathlib import Path

from repository import closed, pages, read

README = "README.md"
PARTS = ("src", "specs", "proofs")


def logic(root):
    """The logic with which the crates are proved."""
    return re.search(r"\blogic (\w+)", read(root / README))[1]


def faults_of_logic(root):
    """Where the kit on this machine, if there is one, has another logic, and where another page names it."""
    wanted = logic(root)
    if shutil.which("rt"):
        version = subprocess.run(["rt", "version"], capture_output=True, text=True).stdout.strip()
        if f"logic {wanted}" not in version:
            yield f"the crates are proved with the logic {wanted}, and rt version prints {version}"
    others = (it for it in pages(root) if it != root / README and wanted in read(it))
    yield from (f"{it.relative_to(root)} names the logic, as {README} alone does" for it in others)


def lines_of(root):
    """The lines of crates.txt, by the names of the crates."""
    return {line.split(":")[0]: line for line in read(root / "crates.txt").splitlines() if re.match(r"\w+:", line)}


def copy(root, folder, crate):
    """Puts a crate into a repository, in the place of an older copy."""
    there = folder / "crates" / crate
    for part in (it for it in PARTS if (root / "crates" / crate / it).exists() or (there / it).exists()):
        shutil.rmtree(there / part, ignore_errors=True)
        if (root / "crates" / crate / part).exists():
            shutil.copytree(root / "crates" / crate / part, there / part)
    shutil.copyfile(root / "LICENSE", there / "LICENSE")


def main(arguments, root):
    faults, own = list(faults_of_logic(root)), lines_of(root)
    if arguments:
        folder, wanted = Path(arguments[0]).resolve(), arguments[1:] or ["arraystring"]
        unknown = [it for it in wanted if it not in own]
        if unknown or not folder.is_dir() or folder == root:
            return f"no crate {unknown[0]}" if unknown else f"{folder} is no folder of another repository"
        below = closed(wanted, lambda it: [name for name in re.findall(r"\w+", own[it].partition(":")[2]) if name in own])
        added = [it for it in own if it in below]
        for crate in added:
            copy(root, folder, crate)
        listed = folder / "crates.txt"
        kept = [it for it in (read(listed).splitlines() if listed.exists() else []) if it.split(":")[0] not in added]
        listed.write_text("\n".join([*kept, *(own[it] for it in added)]) + "\n", encoding="utf-8")
        print(f"{folder} has {', '.join(added)}")
    print("\n".join(faults) or f"the logic is {logic(root)}")
    return bool(faults)
