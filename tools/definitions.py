"""The definitions of specs/, the types and constants of the sources, and what the names in them stand for.

`headline` and `define` follow them. Names of the standard library and of the kit's crates stand for nothing here.
"""

import os
import re
from collections.abc import Iterator
from dataclasses import dataclass, field

TOP = os.path.dirname(os.path.dirname(os.path.realpath(__file__)))
NAME = r"[A-Za-z_][\w'-]*"
HEAD = re.compile(rf"(?:(?:abbrev|unfoldable|irreducible|opaque|inductive) )?pub (?:(record|data|abbrev) )?({NAME})")


@dataclass
class Definition:
    """A definition, a type or a constant, and where it stands."""

    name: str
    file: str
    line: int
    text: list[str] = field(default_factory=list)
    comment: list[str] = field(default_factory=list)
    module: "Module | None" = None
    is_spec: bool = False

    @property
    def key(self) -> tuple[str, int]:
        """What tells it from every other one."""
        return self.file, self.line

    def lines(self) -> int:
        """How many lines it has without comments."""
        return sum(1 for line in self.text if line.strip() and not line.strip().startswith(("--", "//")))


@dataclass
class Module:
    """A file of definitions: what it has, and what the names and aliases of its imports stand for."""

    own: dict[str, Definition]
    names: dict[str, tuple[str, str]]
    aliases: dict[str, str]


def imports(text: str) -> tuple[dict[str, tuple[str, str]], dict[str, str]]:
    """The names that the imports bring in, and the aliases of modules."""
    names, aliases = dict[str, tuple[str, str]](), dict[str, str]()
    for path, items, alias in re.findall(r"^\s*(?:ghost )?use ([\w.]+?)(?:\.\{([^}]*)\}|(?: as (\w+)))?;?\s*$", text, re.M):
        if alias:
            aliases[alias] = path
        for item in items.split(","):
            its, _, new = item.strip().partition(" as ")
            names[new or its] = (path, its)
    return names, aliases


def read_module(file: str) -> Module:
    """The definitions of a file of specs/."""
    with open(f"{TOP}/{file}", encoding="utf-8") as it:
        text = it.read()
    own, comment = dict[str, Definition](), list[str]()
    last = None
    for number, line in enumerate(text.split("\n"), 1):
        head = HEAD.match(line)
        if head:
            last = Definition(head[2], file, number, [line], comment, is_spec=True)
            own[head[2]] = last
            comment = []
        elif line.startswith("--"):
            last, comment = (last, comment + [line[2:].strip()])
        elif not line.strip():
            comment = []
        elif last and not line.startswith("use "):
            last.text.append(line)
    module = Module(own, *imports(text))
    for its in own.values():
        its.module = module
    return module


def modules() -> dict[str, Module]:
    """The files of specs/, by the paths under which they are imported."""
    found = {}
    for crate in sorted(os.listdir(f"{TOP}/crates")):
        for folder, _, files in os.walk(f"{TOP}/crates/{crate}/specs"):
            for name in sorted(files):
                if name.endswith(".antt") and name != "Lib.antt":
                    file = os.path.relpath(f"{folder}/{name}", TOP)
                    path = file[len(f"crates/{crate}/") : -len(".antt")].replace("/", ".")
                    found[f"Rattle.{crate}.{path}"] = read_module(file)
    return found


def declared(path: str, name: str) -> Definition | None:
    """The type or constant of the sources that `declared` speaks of, with its lines."""
    words = path.split(".")
    if len(words) < 4 or words[3] != "declared":
        return None
    crate, inner = words[1], [it for it in words[4:]]
    for cut in range(len(inner), -1, -1):
        for file in ["/".join(inner[:cut]) + ".rt", "/".join([*inner[:cut], "mod.rt"]), "lib.rt", "main.rt"]:
            full = f"crates/{crate}/src/{file}"
            if not os.path.isfile(f"{TOP}/{full}"):
                continue
            # A variant or a field is told by its type.
            for wanted in [name, *reversed(inner[cut:])]:
                found = item_of(full, wanted)
                if found:
                    return found
    return None


def item_of(file: str, name: str) -> Definition | None:
    """The item of that name in a source file."""
    with open(f"{TOP}/{file}", encoding="utf-8") as it:
        lines = it.read().split("\n")
    for at, line in enumerate(lines):
        if not re.match(rf"pub (struct|enum|const|type) {re.escape(name)}\b", line):
            continue
        end = at
        if not re.search(r"[;}]\s*$", line):
            while not lines[end].startswith(("}", "]", ")")):
                end += 1
        comment, above = list[str](), at - 1
        while above >= 0 and lines[above].startswith(("///", "#[")):
            if lines[above].startswith("///"):
                comment.insert(0, lines[above][3:].strip())
            above -= 1
        return Definition(name, file, at + 1, lines[at : end + 1], comment)
    return None


def bound(definition: Definition) -> set[str]:
    """The names that the definition itself brings in: parameters, variables and fields."""
    text = "\n".join(definition.text)
    found = re.findall(r"λ ([^.]*)\.", text) + re.findall(r"\(([\w' -]+) :", text)
    found += re.findall(r"^  pub (\S+) :", text, re.M) + re.findall(r"\blet (\S+)", text)
    found += re.findall(r"(?:^\s+|[{;] *)([\w'-]+) = ", text, re.M)
    found += re.findall(rf"^{re.escape(definition.name)} (.*?) =", text, re.M)
    return {name for words in found for name in re.findall(NAME, words)}


def rust_cited(definition: Definition) -> Iterator[Definition | None]:
    """The types and constants of the repository that a type of the sources names."""
    with open(f"{TOP}/{definition.file}", encoding="utf-8") as it:
        source = it.read()
    crate = definition.file.split("/")[1]
    brought: dict[str, str] = {}
    for path, some, one in re.findall(r"^use ((?:crate|spin_\w+)(?:::\w+)*)::(?:\{([^}]*)\}|(\w+));", source, re.M):
        brought.update({name.strip(): path for name in (some or one).split(",")})
    text = re.sub(r"//.*|#\[.*\]", "", "\n".join(definition.text))
    for word in dict.fromkeys(re.findall(r"\b[A-Z]\w*", text)):
        if word not in brought:
            yield item_of(definition.file, word)
        elif brought[word].startswith("crate::"):
            yield item_of(f"crates/{crate}/src/{brought[word][len('crate::'):].replace('::', '/')}.rt", word)
        else:
            yield handed_out(brought[word].split("::")[0], word)


def handed_out(crate: str, name: str) -> Definition | None:
    """The type or constant that a crate hands out under that name, where it is its own."""
    for folder, _, files in os.walk(f"{TOP}/crates/{crate}/src"):
        for file in sorted(files):
            found = item_of(os.path.relpath(f"{folder}/{file}", TOP), name)
            if found:
                return found
    return None


class Names:
    """What the names in a text stand for, in the module of the file that it stands in."""

    def __init__(self) -> None:
        """Reads all definitions."""
        self.known = modules()

    def cited(self, definition: Definition) -> list[Definition]:
        """The definitions that a definition cites, in the order of its text, each once."""
        if definition.module is None:
            return [it for it in rust_cited(definition) if it and it.key != definition.key]
        module = definition.module
        own = bound(definition) if definition.is_spec else set()
        text = "\n".join(re.sub(r"(--|//).*", "", it) for it in definition.text)
        found: list[Definition] = []
        for word in re.findall(rf"{NAME}(?:\.{NAME})*", text):
            its = None if word.partition(".")[0] in own else self.look_up(word, module)
            if its and its.key != definition.key and its.key not in [it.key for it in found]:
                found.append(its)
        return found

    def look_up(self, word: str, module: Module) -> Definition | None:
        """The definition that a word stands for in a module, if it is one of the repository."""
        first, _, rest = word.partition(".")
        if first in module.aliases and rest:
            return self.meet(module.aliases[first], rest.split(".")[0])
        if first in module.own:
            return module.own[first]
        return self.meet(*module.names[first]) if first in module.names else None

    def meet(self, path: str, name: str) -> Definition | None:
        """The definition of that name in the module of that path, or the type or constant of the sources."""
        if path in self.known and name in self.known[path].own:
            return self.known[path].own[name]
        return declared(path, name) if ".declared." in path else None

    def named(self, name: str) -> Definition:
        """The definition, or else the type of the sources, that a name with its crate, as `spin_run:IsWhole`, stands for."""
        crate, _, its = name.partition(":")
        for path, module in self.known.items():
            if path.startswith(f"Rattle.{crate}.") and its in module.own:
                return module.own[its]
        found = handed_out(crate, its)
        if found:
            return found
        raise SystemExit(f"no definition {name}")
