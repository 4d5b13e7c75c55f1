"""Which declarations of this repository the contracts of the exports and some statements lead to.

A word of a declaration is resolved by the `use` lines of its file to the module, struct or enum that declares it, and so on; a renamed one by the name that it has there, the parts of
an operator to the operator, a whole path as it stands. Of a definition its type and body are followed, of a theorem its type alone: a proof is checked and need not be believed.
What the kit's own libraries declare is outside. A word that is nothing of all this is a fault: it would be passed over unseen.
"""
import re
import sys
from functools import lru_cache
from pathlib import Path


def is_counted(line):
    return bool(line.strip()) and not re.match(r"\s*(--|//|((ghost|unfoldable|pub) )*use )", line)


def margin(line):
    return len(line) - len(line.lstrip())


def parts(name):
    """What stands for a name in a text: an operator is written by its parts too."""
    return [name, *filter(None, name.split("◌"))] if "◌" in name else [name]


def imports(text, keyword):
    """Of `use` lines: name here -> path and name there; and name here -> path, of modules."""
    names, modules = {}, {}
    for path, items, alias in re.findall(rf"^{keyword} ([^\s{{;]+?)(?:\.\{{([^}}]*)\}}| as (\S+?))?;?$", text, re.M):
        if path.endswith(".*"):
            sys.exit(f"not followed: use {path}")
        head, _, rest = path.partition(".")
        path = f"{modules[head]}.{rest}" if head in modules and rest else path
        if not items:
            modules[alias or path.rpartition(".")[2]] = path
        for item in filter(None, map(str.strip, items.split(","))):
            there, _, here = item.partition(" as ")
            below, _, last = there.rpartition(".")
            for part in parts(here or last):
                names[part] = (f"{path}.{below}" if below else path, last)
    return names, modules


KNOWN = set('_ : = → -> × ⊥ "C" | ↦ result Type Unit abbrev bool data ensures enum extern elim fn in let module mut now pub record struct u8 u16 u32 u64 unfoldable usize where'.split())


class Declaration:
    """What a file declares under a name, and the numbers of its lines that have to be believed."""

    def __init__(self, file, name, lines):
        self.file, self.name, self.numbers = file, name, lines

    def lines(self):
        return [self.file.lines[number] for number in self.numbers if is_counted(self.file.lines[number])]


def module_file(crate, name):
    """A module stands in specs/, or, where theorems stand behind a definition, in proofs/."""
    return next((path for part in ("specs", "proofs") if (path := Path(f"crates/{crate}/{part}/{name}.antt")).exists()), None)


class Specs:
    """A module of crates/CRATE/specs or proofs: what it declares, and from which path it has each other name."""

    DECLARES = re.compile(r"((?:abbrev |unfoldable )*)(?:pub )?(?:(record |data )([^\s:({]+)|([^\s:({]+)(?: \{[^{}]*\})* :)")
    UNKNOWN = re.compile(r" *(?:(?:unfoldable|abbrev|pub) )*(?:open|mutual|axiom|module (?!_ ))\b")

    def __init__(self, crate, name):
        self.crate, self.name, self.declared = crate, name, {}
        self.lines = module_file(crate, name).read_text().splitlines()
        text = "\n".join(self.lines)
        self.paths, self.aliases = imports(text, "(?:unfoldable |pub )*use")
        lost = next((line for line in self.lines if self.UNKNOWN.match(line)), None)
        if lost:
            sys.exit(f"{crate}: {name}: not followed: {lost}")
        self.read(0, 0, [])
        self.operators = {part: one for whole, one in self.declared.items() for part in parts(whole)}

    def read(self, at, column, heads):
        """The declarations from line `at` on that begin in this column, inside the parameter lists `heads`; hands back the line after them."""
        current, proof = None, False
        while at < len(self.lines):
            line = self.lines[at]
            found = self.DECLARES.match(line, column)
            if not is_counted(line):
                pass
            elif margin(line) < column:
                return at
            elif margin(line) > column:
                if not proof and current:
                    current.numbers.append(at)
            elif line.startswith("module _", column):
                end = next(n for n in range(at, len(self.lines)) if self.lines[n].endswith(" where"))
                at = self.read(end + 1, column + 2, [*heads, *range(at, end + 1)]) - 1
                current = None
            elif found:
                name, is_theorem, proof = found[3] or found[4], not (found[1] or found[2]), False
                current = self.declared.setdefault(name, Declaration(self, name, []))
                current.numbers += [*heads, at]
            elif current and is_theorem:
                proof = True
            elif current:
                current.numbers.append(at)
            at += 1
        return at

    def cited(self, name):
        """The path and the name in it that a word of this module stands for, if it is declared elsewhere."""
        alias, _, rest = name.partition(".")
        if alias in self.aliases and rest:
            below, _, last = rest.rpartition(".")
            return f"{self.aliases[alias]}.{below}" if below else self.aliases[alias], last
        if name.startswith("Rattle."):
            return name.rpartition(".")[::2]
        # A field stands tight behind a value, as in `c.row`.
        name = name if name in self.paths else name.partition(".")[0] or name
        return self.paths.get(name, (None, name))


class Source:
    """The structs and enums of crates/CRATE/src, and the functions that C can call with their contracts."""

    BEGINS = re.compile(r"pub (?:struct|enum|extern \"C\" fn) (\w+)")

    def __init__(self, crate):
        self.crate, self.name, self.declared, self.lines = crate, "src", {}, []
        for file in sorted(Path(f"crates/{crate}/src").glob("*.rt")):
            self.lines += file.read_text().splitlines()
        text = "\n".join(self.lines)
        self.paths, self.aliases = imports(text, "ghost use")
        for path, names in re.findall(r"^use (?!crate\b)(\w+)::(?:\w+::)*(\w+|\{[^}]*\});", text, re.M):
            self.paths.update({name: (f"Rattle.{path}.specs.declared.{name}", name) for name in re.findall(r"\b[A-Z]\w*", names)})
        for at, line in enumerate(self.lines):
            found = self.BEGINS.match(line)
            if found:
                end = at if line.endswith(";") else next(n for n in range(at, len(self.lines)) if self.lines[n] in ("{", "}"))
                self.declared[found[1]] = Declaration(self, found[1], list(range(at, end + (self.lines[end] != "{"))))
        self.operators = self.declared

    def cited(self, name):
        crate, _, rest = name.partition("::")
        return (f"Rattle.{crate}.specs.declared.{rest}", rest) if rest else Specs.cited(self, name)

    def exports(self):
        """Each has to have a contract and may ask for nothing."""
        for at, line in enumerate(self.lines):
            if line == "#[unsafe(no_mangle)]":
                one = self.declared[self.BEGINS.match(self.lines[at + 1])[1]]
                if not any(re.match(r" +ensures ", each) for each in one.lines()) or any(re.match(r" +requires ", each) for each in one.lines()):
                    sys.exit(f"{one.name} has no contract, or asks for something")
                yield one


specs = lru_cache(None)(Specs)
source = lru_cache(None)(Source)


def declaration(path, name):
    """What is declared under a path such as Rattle.definition.specs.Rules or Rattle.session.specs.declared.Ran; None for the kit's own."""
    crate = path.split(".")[1] if path.startswith("Rattle.") else None
    if not crate or not Path(f"crates/{crate}").is_dir():
        return None
    found = re.fullmatch(r"Rattle\.\w+\.(?:specs|proofs)\.(declared\.(?:\w+\.)*)?(\w+)", path.removesuffix(".TheVariants"))
    if not found:
        sys.exit(f"no path of this repository: {path}")
    is_declared, last = found.groups()
    file = source(crate) if is_declared else specs(crate, last)
    return within(file, last if is_declared else name)


def within(file, name):
    """The declaration that a name has in a file: as a constructor it has that of its data type, and a file may hand on what another declares."""
    if name in file.operators:
        return file.operators[name]
    if name in file.paths:
        return declaration(*file.paths[name])
    for one in file.declared.values():
        if re.match(r"(?:pub )?data ", one.lines()[0].lstrip()) and any(name in line.split(" : ")[0].split() for line in one.lines()[1:]):
            return one
    return None


def clauses(one):
    """The text of a declaration in parts with variables of their own: type or record, and each clause; each with the parameter lists that it stands in."""
    lines = one.lines()
    first = next(at for at, line in enumerate(lines) if not line.lstrip().startswith("module _") and re.search(rf"(^|\s){re.escape(one.name)}(\s|\(|$)", line))
    for at in range(first, len(lines)):
        if margin(lines[at]) == margin(lines[first]):
            end = next((n for n in range(at + 1, len(lines)) if margin(lines[n]) == margin(lines[first])), len(lines))
            yield "\n".join(lines[:first]), "\n".join(lines[at:end])


def words(one):
    """The words of a declaration that may name something else: no field (.field, field = .. or field : ..), no variable, unless a `use` line brings in its name."""
    for around, clause in clauses(one):
        head = re.match(rf"\s*{re.escape(one.name)}(\s[^=:]*?)? =\s", clause)
        variables = set(re.findall(r"[^\s(){},]+", head[1] or "")) if head else set()
        for names in re.findall(r"[({]([^(){}:=]+?) : |λ ([^.(){}]*)\.|\blet (\S+) [:=]|^ *(?:pub )?([^\s:(){}]+) : |\b(\w+): ", around + "\n" + clause, re.M):
            variables |= set(" ".join(names).split())
        tokens = re.findall(r"[^\s(){}\[\];,&⌜⌝λ]+", around + "\n" + clause)
        for at, token in enumerate(tokens):
            word = token.rstrip(".")
            head = word.partition(".")[0]
            if not token.startswith(".") and tokens[at + 1 : at + 2] not in (["="], [":"]) and (head not in variables or head in one.file.paths):
                yield word if word.startswith("Rattle.") or head in one.file.aliases else head


def is_known(one, word):
    """A word that names nothing to follow: a number, one of the languages' own, or in a file of code a parameter, field or case."""
    if re.fullmatch(r"\d+|\w+:", word) or word in KNOWN:
        return True
    text = "\n".join(one.lines())
    return isinstance(one.file, Source) and bool(re.search(rf"\b{re.escape(word.strip('«»'))}:|^ +{re.escape(word)}\b", text, re.M))


def reached(crate, statements):
    """All declarations that the exports of a crate and the statements (crate, module and names of each) lead to."""
    waiting = [*source(crate).exports(), *(specs(crate, module).declared[name] for crate, module, names in statements for name in names)]
    found = {}
    while waiting:
        one = waiting.pop()
        if (one.file, one.name) in found:
            continue
        found[one.file, one.name] = one
        for word in words(one):
            path, name = one.file.cited(word)
            cited = declaration(path, name) if path else within(one.file, word)
            if path and path.startswith("Rattle.") and Path("crates", path.split(".")[1]).is_dir() and not cited:
                sys.exit(f"{one.file.crate}: {one.file.name}.{one.name} cites {name} of {path}, which is not found")
            if not path and not cited and not is_known(one, word):
                sys.exit(f"{one.file.crate}: {one.file.name}.{one.name} has the word {word}, which is not found")
            if cited:
                waiting.append(cited)
    return list(found.values())
