"""Fails where a move or a look might not be counted, as no contract says that each is.

It alone sees, for example, that `compact_and_splice` moves the tail with `&mut Steps::new()` in place of `steps`: the moves of the front
reach the lower bound of its contract. (`tools/run evidence` then names the wrong bodies that quote the line, and not why it is wrong.)

- A function that is given a `Steps` makes no other, and copies none. `Steps` has no other name.
- arraystring_core moves bytes by the calls MOVES alone, and assigns none by an index or in a loop over all. Of LEAF, whose
  functions count nothing, it names READS alone: those read, lend or turn case.
- The calls LOOKS, and what they give their `Steps` to, read bytes by `look` alone: they make only such calls and CALLS.
"""
import re

import evidence
from repository import closed, read, sources

# What moves bytes, or writes them over others: each `pub fn` of MODULE, each of LEAF but READS, and what a slice of std has.
MODULE, LEAF = "crates/arraystring_base/src/moves.rt", "crates/arraystring_base/src/leaf.rt"
MOVES, READS = {"shift", "shift_on_cold_path", "write_over", "write_by_call"}, {"byte", "part_of_length", "text_before_boundary", "text_from_boundary", "uppercase_between", "lowercase_between"}
OF_STD = {"copy_within", "copy_from_slice", "clone_from_slice", "copy_to_slice", "swap", "swap_with_slice", "rotate_left", "rotate_right",
          "reverse", "iter_mut"}
# A cut and a pop, and what they may call beside `look`: nothing of it reads a byte.
LOOKS = ["truncate_str_counted", "pop_counted"]
CALLS = {"look", "len", "is_empty", "as_bytes", "as_str", "text_before_boundary", "set_len", "is_continuation", "from_u32_unchecked", "Some"}


def main(arguments, root):
    faults, given = [], {}
    others = {*re.findall(r"(?m)^pub\S* fn (\w+)", read(root / MODULE) + read(root / LEAF)), *OF_STD} - MOVES - READS
    for crate in ("arraystring_base", "arraystring_core", "arraystring"):
        for path in sources(root / "crates" / crate):
            text = re.sub("//.*", "", read(path))
            if re.search(r"\bSteps as\b|\btype\b[^;]*\bSteps\b", text):
                faults.append(f"{path.relative_to(root)}: Steps has another name")
            for names in re.findall(r"\bleaf\b(?:::(\w+|\{[^}]*\}))?", text) if crate == "arraystring_core" else []:
                for name in sorted({*re.findall(r"\w+", names)} - READS) if names else ["all"]:
                    faults.append(f"{path.relative_to(root)}: {name} of leaf is named, which nothing counts")
            for function in evidence.functions_of(text):
                body = "\n".join(function.body)
                if re.search(r":\s*(&mut |mut )?Steps\b", function.header):
                    given[function.name] = f"{path.relative_to(root)}: {function.name}", body
                    if re.search(r"\bSteps\b|\*steps\b|\bsteps\.clone\b", body):
                        faults.append(f"{path.relative_to(root)}: {function.name} is given a Steps and makes another")
                assigns = re.search(r"\] ([-+*/%&|^]|<<|>>)?= |\bin &mut ", re.sub(r"\blet [^=]*=", "", body))
                if assigns and crate == "arraystring_core":
                    faults.append(f"{path.relative_to(root)}: {function.name} assigns to items, which nothing counts")
                for name in sorted(others & function.words) if crate == "arraystring_core" else []:
                    faults.append(f"{path.relative_to(root)}: {function.name} moves bytes by {name}, which nothing counts")
    faults += [f"{name} is no function that is given a Steps" for name in LOOKS if name not in given]
    looks = closed(given.keys() & LOOKS, lambda name: {*re.findall(r"\w+", given[name][1])} & given.keys() - CALLS)
    for where, body in (given[name] for name in sorted(looks)):
        for name in sorted({*re.findall(r"\w+(?=\()|\[", body)} - CALLS - looks):
            faults.append(f"{where} may read a byte by {name}, which nothing counts")
    print("\n".join(faults) or f"{len(given)} functions that are given a Steps make no other, and moves go through {', '.join(sorted(MOVES))}")
    return bool(faults)
