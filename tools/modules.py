"""The modules of specs/ and proofs/, which are laid out as `rt fmt` does: their items, and what the names in them stand for.
Examples are left out."""
import re

from repository import NAME, crates, proof_files, read

IMPORT = re.compile(r"(?m)^ *(?:unfoldable |pub |ghost )*use (Rattle[^\s{;]*?)(?:\.\{([^}]*)\})?(?: as ([^\s;]+))?;?$")


def imports(text):
    """What a file imports, but from std: by each name the path of a module, and a word of it or nothing. An impl may import for itself.
    So it raises a ValueError where a name is brought from two places: which of them a word means is not looked up."""
    names = {}
    for path, listed, alias in IMPORT.findall(text):
        words = [it.strip().partition(" as ") for it in re.findall(r"[^,\s][^,]*", listed)]
        brought = {other or word: word for word, _, other in words} if listed else {alias or path.rpartition(".")[2]: ""}
        for name, word in brought.items() if not path.startswith("Rattle.std.") else ():
            if names.setdefault(name, (path, word)) != (path, word):
                raise ValueError(f"two imports bring {name}: {path} has one, and {names[name][0]} another")
    return names


def module_of(path):
    """The name of the module in a file, by its path in the repository."""
    return "Rattle." + ".".join(path.with_suffix("").parts[1:])


def for_callers(root, crate):
    """The laws and rulesets that callers of a crate can cite: what is `pub` in a module that its proofs/Lib.antt passes on."""
    found, listed = set(), root / f"crates/{crate}/proofs/Lib.antt"
    passed = re.findall(r"(?m)^pub (?:mod|use Rattle\.(\w+)\.proofs\.)\s*(\w+)$", read(listed)) if listed.exists() else []
    for other, name in passed:
        text = read(root / f"crates/{other or crate}/proofs/{name}.antt")
        brought = " ".join(re.findall(r"(?m)^pub use [^{;]*\{([^}]*)\}", text))
        found |= {*re.findall(rf"(?m)^ *pub (?:ruleset )?({NAME}) [:=](?=\s)", text), *re.findall(NAME, brought)}
    return found


class Item:
    """An item of a module: the comment directly above, its lines without comments, and the blocks `module _ .. where` around it."""

    def __init__(self, path, number, line, comment, around, names):
        form = rf"\s*(abbrev |unfoldable )?(pub )?(data |record |ruleset )?({NAME}).*"
        kind, public, other, self.name = re.fullmatch(form, line).groups()
        self.path, self.number, self.lines, self.comment, self.around, self.names = path, number, [line], comment, around, names
        self.part = path.parts[2]
        is_claim = kind and re.search("[≡≢≤<]", line.rpartition("→" if "→" in line else " : ")[2])
        self.is_definition = bool(kind or other in ("data ", "record ")) and not is_claim
        self.is_data = other == "data "
        self.is_law = public and not self.is_definition and re.search("(Laws|GhostProofs)$", path.stem)

    def __str__(self):
        return f"{self.path}:{self.number}: {self.name}"


def parsed(path, text):
    """The items of a module in order, and what the names in it stand for."""
    items, names, item, around, above = [], imports(text), None, [], []
    for number, line in enumerate(text.split("\n"), 1):
        comment = re.match(r"\s*-- (.*)", line)
        above, told = [*above, comment[1]] if comment else [], above
        # (without comments, and what strings say)
        line = re.sub(r"(^|\s)--(\s.*)?$", "", re.sub('"[^"]*"', '""', line)).rstrip()
        if not line or re.match(r"(unfoldable )?(pub )?(use|mod) ", line):
            continue
        indent = len(line) - len(line.lstrip())
        around = around[: indent // 2]
        if item and (indent > 2 * len(around) or line.split()[0] in (item.name, "unfolding") or line.lstrip()[0] in ")]}"):
            item.lines.append(line)
            case = re.match(rf"\s+({NAME}) :", line)
            if item.is_data and case:
                names[case[1]] = item
            continue
        item = Item(path, number, line, " ".join(told), around, names)
        if item.name == "module":
            around = [*around, item]
        else:
            items.append(item)
            names[item.name] = item
    return items, names


class Modules:
    """The modules of a repository in the order in which they are read, that of crates.txt, of specs/Lib.antt, and of their paths:
    all items, and by the path of a module what the names in it stand for."""

    def __init__(self, root):
        self.root, self.items, self.modules = root, [], {}
        for folder in [root / "crates" / it for it in crates(root)]:
            listed = folder / "specs/Lib.antt"
            order = read(listed) if listed.exists() else ""
            specs = sorted(folder.glob("specs/**/*.antt"), key=lambda it: len(order.split(f"mod {it.stem}\n")[0]))
            for file in [*specs, *proof_files(folder)]:
                path = file.relative_to(root)
                items, self.modules[module_of(path)] = parsed(path, read(file))
                self.items += items

    def names_in(self, path):
        """What the names in a module stand for, of which a Lib.antt may say that another crate has it. It is empty outside of these crates."""
        while path not in self.modules:
            parent, _, last = path.rpartition(".")
            if last not in self.modules.get(f"{parent}.Lib", {}):
                return {}
            path, _ = self.modules[f"{parent}.Lib"][last]
        return self.modules[path]

    def resolved(self, names, word):
        """The item of the repository that a word stands for among these names, if it is one."""
        first, _, rest = word.partition(".")
        target = names.get(first)
        if not isinstance(target, tuple):
            return target
        path, name = target
        return self.resolved(self.names_in(path), name or rest.partition(".")[0])

    def named(self, term, names):
        """The items that a term names. Labels of clauses and of records are no words, nor are fields."""
        term = re.sub(rf"(?m)\b(requires|ensures)( \w+)? \{{|(^ *|[{{;] |\blet ){NAME} = ", " ", term)
        found = {self.resolved(names, word) for word in re.findall(rf"\.?{NAME}(?:\.{NAME})*", term)}
        return found - {None}

    def words(self, item):
        """The items that an item and the blocks around it name."""
        return self.named("\n".join(line for it in [*item.around, item] for line in it.lines), item.names)
