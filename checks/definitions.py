"""Reads the definitions (specs/*.antt) and the declarations (src/*.rt) of the crates, item by item.

Each item has its lines, the names that it gives (its own, its constructors, its fields), and the items that
it uses: those whose names stand in it, by the file's imports. So an import that an item does not name does
not count for it. A variable of the same name as an item of its file counts as that item, which is too much
and never too little.

Of a type that contracts see by a model (`impl Model`) what counts is of what kind the model's values are, and
not how the type keeps them, unless a definition looks inside it. Of a function the contract counts, and not
the body.
"""

import re
from collections import namedtuple
from functools import cached_property, lru_cache
from pathlib import Path
from typing import Callable, Dict, Iterable, List, Optional, Set, Tuple, TypeVar

# Where an item is: a crate, the path of its file in the crate, and the item's name.
Key = namedtuple("Key", "crate path name")

WORD = r"[^\W\dλ][\w'?!]*(?:-[^\W\dλ][\w'?!]*)*"
# A name with what is read of it after dots, as `line.command`.
DOTTED = re.compile(rf"(?<![\w.◌']){WORD}(?:\.(?:{WORD}|\d+))*")
# What says nothing of a line: texts, and a comment at its end.
SILENT = re.compile(r'"(?:[^"\\]|\\.)*"|\s(?:--|//)\s.*$')
COMMENT = re.compile(r"^\s*(--|//)")

SPEC_HEAD = re.compile(rf"^(?:abbrev |unfoldable )?(?:pub )?(?:(record|data) )?({WORD})")
CODE_HEAD = re.compile(r"^(?:pub(?:\([a-z]+\))? )?(const|struct|enum|trait|type|fn) (\w+)")
METHOD_HEAD = re.compile(r"^    (?:pub(?:\([a-z]+\))? )?fn (\w+)")
MODEL_HEAD = re.compile(r"^impl(?:<.*?>)? Model for (\w+)")
# A field of a struct, a variant of an enum, and a ghost member or a function of a trait.
MEMBERS = {
    "struct": re.compile(r"^    (?:pub(?:\([a-z]+\))? )?(\w+):"),
    "enum": re.compile(r"^    ([A-Z]\w*)"),
    "trait": re.compile(r"^    (?:ghost |fn )(\w+)"),
}
SPEC_USE = re.compile(r"^\s*(?:ghost )?use ([\w.]+?)(?:\.\{(.*)\}| as (\w+));?$")
CODE_USE = re.compile(r"^(?:pub )?use ([\w:]+?)(?:::\{(.*?)\}| as (\w+))?;", re.S)


# What a module gives for a name.
Given = Callable[[str], Optional[Key]]
Node = TypeVar("Node")


class Item:
    def __init__(self, file: "SourceFile", key: Key, kind: str) -> None:
        self.file, self.key, self.kind = file, key, kind
        # the numbers of its lines, and of the comments in it and right above it
        self.lines: List[int] = []
        self.comments: List[int] = []
        # its constructors or variants, and its fields or ghost members
        self.variants: List[str] = []
        self.fields: List[str] = []

    @cached_property
    def uses(self) -> Set[Key]:
        """The keys of the items that it uses."""
        return self.file.uses_of(self)


def dependencies(top: Path) -> Dict[str, List[str]]:
    """What each crate of a repository depends on by crates.txt, crates of the toolchain too."""
    rows = (row.partition("#")[0].partition(":") for row in (top / "crates.txt").read_text().splitlines())
    # (a static library has this word after its name)
    return {front.split()[0]: names.split() for front, colon, names in rows if colon}


def below(top: Path, crate: str) -> List[str]:
    """A crate, and the crates of the repository that it stands on, each after those below it."""
    deps = dependencies(top)
    return in_order({crate} & deps.keys(), lambda one: [name for name in deps[one] if name in deps])


def in_order(roots: Iterable[Node], below: Callable[[Node], Iterable[Node]]) -> List[Node]:
    """All that is reached from the roots, each after what is below it."""
    order: List[Node] = []
    seen: Set[Node] = set()

    def visit(one: Node) -> None:
        if one not in seen:
            seen.add(one)
            for other in below(one):
                visit(other)
            order.append(one)

    for root in roots:
        visit(root)
    return order


class Repository:
    """The crates below one folder, and what their names mean."""

    def __init__(self, top: Path) -> None:
        self.top = Path(top)
        deps = dependencies(self.top)
        self.deps = {crate: [dep for dep in names if dep in deps] for crate, names in deps.items()}
        self.crates = in_order(self.deps, self.deps.__getitem__)

    @lru_cache(maxsize=None)
    def file(self, crate: str, path: str) -> "SourceFile":
        reader = Definitions if path.endswith(".antt") else Code
        return reader(self, crate, path)

    @lru_cache(maxsize=None)
    def paths(self, crate: str, folder: str, ending: str) -> List[str]:
        root = self.top / "crates" / crate
        return sorted(str(path.relative_to(root)) for path in (root / folder).rglob(f"*.{ending}"))

    @lru_cache(maxsize=None)
    def declared(self, crate: str, name: str) -> Optional[Key]:
        """The declaration of this name in a crate, wherever it stands there."""
        for path in self.paths(crate, "src", "rt"):
            item = self.file(crate, path).items.get(name)
            if item and item.kind != "fn":
                return item.key
        return None

    def home(self, crate: str, module: str) -> str:
        """The crate that has a module of definitions: this one, or the one whose module it passes on."""
        names = self.top / "crates" / crate / "specs" / "Lib.antt"
        passed_on = rf"^pub use Rattle\.(\w+)\.specs\.{re.escape(module)}$"
        found = re.search(passed_on, names.read_text(), re.MULTILINE) if names.is_file() else None
        return found[1] if found else crate

    def module(self, path: str) -> Optional[Given]:
        """What a module of definitions gives for a name, as a function; None for one of the toolchain."""
        parts = path.split(".")
        if len(parts) < 4 or parts[0] != "Rattle" or parts[1] not in self.deps or parts[2] != "specs":
            return None
        crate, rest = parts[1], parts[3:]
        if rest[0] not in ("declared", "contracts"):
            file = self.file(self.home(crate, ".".join(rest)), "specs/" + "/".join(rest) + ".antt")
            return lambda name: file.given(name)
        kind = rest[-1] if rest[-1].startswith("The") else None
        rest = rest[1:-1] if kind else rest[1:]
        if kind == "TheConstants":
            return lambda name: Key(crate, f"src/{'/'.join(rest)}.rt", name)
        owner = Key(crate, f"src/{'/'.join(rest[:-1])}.rt", rest[-1])
        if kind == "TheInside":
            return lambda name: owner._replace(name=owner.name + "(inside)")
        return lambda name: owner

    def item(self, key: Key) -> Item:
        file = self.file(key.crate, key.path)
        found = file.items.get(key.name)
        if found is None:
            raise KeyError(f"{key.crate}/{key.path} has no {key.name}")
        return found

    def reached(self, roots: Iterable[Key]) -> Dict[Key, Item]:
        """The items that the roots rest on, roots included."""
        return {key: self.item(key) for key in in_order(roots, lambda key: self.item(key).uses)}


class SourceFile:
    def __init__(self, repository: Repository, crate: str, path: str) -> None:
        self.repository, self.crate, self.path = repository, crate, path
        self.rows = (repository.top / "crates" / crate / path).read_text().splitlines()
        self.items: Dict[str, Item] = {}
        self.owners: Dict[str, str] = {}
        # what it imports: a name -> its key or None; an alias of a module -> what gives its names
        self.names: Dict[str, Optional[Key]] = {}
        self.modules: Dict[str, Optional[Given]] = {}

    def add(self, kind: str, name: str) -> Item:
        item = Item(self, Key(self.crate, self.path, name), kind)
        self.items[name] = item
        return item

    def given(self, name: str) -> Key:
        """The key of the item that gives this name here."""
        return Key(self.crate, self.path, self.owners.get(name, name))

    def imports(self, row: str) -> bool:
        """Takes an import of definitions; whether the line is one."""
        found = SPEC_USE.match(row)
        if found is None:
            return False
        path, names, alias = found.groups()
        module = self.repository.module(path)
        if alias:
            self.modules[alias] = module
        for name in (names or "").split(","):
            name, _, other = name.strip().partition(" as ")
            if name and "◌" not in name:
                self.names[other or name] = module(name) if module else None
        return True

    def meanings(self, dotted: str) -> List[Optional[Key]]:
        """The keys of what a name with dots may mean; None for a variable, and for what is not the
        repository's."""
        first, *rest = dotted.split(".")
        if first in self.modules:
            module = self.modules[first]
            return [module(rest[0]) if module and rest else None]
        if first in self.owners or first in self.items:
            return [self.given(first)]
        return [self.names.get(first)]

    def uses_of(self, item: Item) -> Set[Key]:
        raise NotImplementedError

    def keys(self, item: Item, words: Iterable[str]) -> Set[Key]:
        """What an item uses by these names."""
        keys = {key for word in words for key in self.meanings(word)}
        return {key for key in keys if key is not None} - {item.key}


class Definitions(SourceFile):
    def __init__(self, repository: Repository, crate: str, path: str) -> None:
        super().__init__(repository, crate, path)
        item: Optional[Item] = None
        above: List[int] = []
        # the rows of each item, and of the modules that it stands in
        self.bodies: Dict[str, List[str]] = {}
        # the rows of the modules that a line stands in; what is in one is indented by two more
        modules: List[str] = []
        for number, row in enumerate(self.rows):
            if not row.strip() or self.imports(row) or row.startswith(("pub mod ", "pub use ")):
                above = []
                continue
            if COMMENT.match(row):
                above.append(number)
                continue
            while modules and not row.startswith("  " * len(modules)):
                modules.pop()
            flat = row[2 * len(modules) :]
            if flat.startswith("module "):
                modules.append(flat)
                above = []
                continue
            head = SPEC_HEAD.match(flat) if flat.startswith(("abbrev ", "unfoldable ", "pub ")) else None
            if head:
                item = self.add(head[1] or "definition", head[2])
                self.bodies[item.key.name] = list(modules)
            if item is None:
                raise ValueError(f"{crate}/{path}:{number + 1}: a line of no definition")
            item.lines.append(number)
            item.comments += above
            above = []
            self.bodies[item.key.name].append(flat)
            member = re.match(rf"^  (?:pub )?({WORD}) :", flat)
            if member and item.kind in ("record", "data") and not head:
                (item.fields if item.kind == "record" else item.variants).append(member[1])
                if item.kind == "data":
                    self.owners[member[1]] = item.key.name

    def uses_of(self, item: Item) -> Set[Key]:
        """The items whose names stand in the lines of one, but for what is read of something after a dot."""
        rows = self.bodies[item.key.name]
        return self.keys(item, {dotted for row in rows for dotted in DOTTED.findall(SILENT.sub("", row))})


class Code(SourceFile):
    """A file of src/: its types, constants and traits, and the contracts of its functions."""

    def __init__(self, repository: Repository, crate: str, path: str) -> None:
        super().__init__(repository, crate, path)
        # what it imports from code: a name -> a crate and a name there
        self.imported: Dict[str, Tuple[str, str]] = {}
        self.crate_uses("\n".join(self.rows))
        item: Optional[Item] = None
        above: List[int] = []
        self.models: Dict[str, List[str]] = {}
        model: Optional[List[str]] = None
        for number, row in enumerate(self.rows):
            if SPEC_USE.match(row):
                # What an impl imports is for it alone.
                if not row.startswith(" "):
                    self.imports(row)
                elif model is not None:
                    model.append(row)
                continue
            if COMMENT.match(row) or row.startswith("#["):
                above.append(number)
                continue
            if not row.strip():
                above = []
                continue
            head, model_head = CODE_HEAD.match(row), MODEL_HEAD.match(row)
            method = METHOD_HEAD.match(row) if item is None else None
            if head:
                item, model = self.add(head[1], head[2]), None
            elif method and method[1] not in self.items:
                # a method is found by its name alone, the first of its name in the file
                item, model = self.add("fn", method[1]), None
            elif model_head:
                item, model = None, self.models.setdefault(model_head[1], [])
            elif not row.startswith((" ", "}", "{", ")")):
                item = model = None
            if model is not None:
                model.append(row)
            if item:
                if item.kind == "fn" and row.strip() == "{":
                    item = None
                    continue
                item.lines.append(number)
                item.comments += above
                self.member(item, row)
            above = []
        # what stands inside a model's type is another item, for definitions that look there
        for name in [name for name in self.models if name in self.items]:
            seen, inside = self.items[name], self.add("struct", name + "(inside)")
            inside.lines, inside.comments, inside.fields = seen.lines, seen.comments, seen.fields

    def member(self, item: Item, row: str) -> None:
        form = MEMBERS.get(item.kind)
        found = form and form.match(row)
        if found:
            (item.variants if item.kind == "enum" else item.fields).append(found[1])

    def crate_uses(self, text: str) -> None:
        """Takes the imports of types and constants from this crate and others."""
        for start in re.finditer(r"^(?:pub )?use ", text, re.M):
            found = CODE_USE.match(text[start.start() :])
            if not found:
                continue
            path, names, alias = found.groups()
            parts = path.split("::")
            if names is None:
                names = parts.pop()
            crate = self.crate if parts and parts[0] == "crate" else parts[0] if parts else names
            if crate not in self.repository.deps:
                continue
            for name in names.split(","):
                name, _, other = name.strip().partition(" as ")
                if name:
                    self.imported[other or alias or name] = (crate, name)

    def meanings(self, dotted: str) -> List[Optional[Key]]:
        # A definition, a declaration elsewhere and one here may have one name. A function is no declaration.
        first = dotted.split(".")[0]
        found = [self.names.get(first)]
        if first in self.imported:
            found.append(self.repository.declared(*self.imported[first]))
        if first in self.items and self.items[first].kind != "fn":
            found.append(self.given(first))
        return found

    def uses_of(self, item: Item) -> Set[Key]:
        """The items whose names stand in a declaration, or in the clauses of a contract."""
        if item.key.name in self.models:
            return self.uses_of_model(item, self.models[item.key.name])
        rows = [self.rows[number] for number in item.lines]
        text = "\n".join(SILENT.sub("", row) for row in rows)
        if item.kind == "fn":
            return self.keys(item, self.words_of_contract(text))
        if item.kind == "enum":
            text = re.sub(r"^    [A-Z]\w*", "", text, flags=re.M)
        return self.keys(item, DOTTED.findall(text))

    def uses_of_model(self, item: Item, model: List[str]) -> Set[Key]:
        """What the values are as which contracts see a type."""
        names, self.names = self.names, dict(self.names)
        for row in model:
            self.imports(row)
        keys = self.keys(item, DOTTED.findall("\n".join(row for row in model if "ghost Value" in row)))
        self.names = names
        return keys

    @staticmethod
    def words_of_contract(text: str) -> Set[str]:
        """The names in the clauses of a contract, and in the types of what these speak of."""
        start = re.search(r"^\s*(?:ensures|requires) ", text, re.M)
        if not start:
            return set()
        head, words = text[: start.start()], set(DOTTED.findall(text[start.start() :]))
        bounds = dict(re.findall(r"(\w+): ((?:\w+ ?\+? ?)+)", head.split("(")[0]))
        types = dict(re.findall(r"(\w+): ([^,)]+)", head.split("(", 1)[1]))
        types["result"] = head.rsplit("->", 1)[-1]
        for meant in (types, bounds):
            for first in {word.split(".")[0] for word in words}:
                words.update(re.findall(r"\w+", meant.get(first, "")))
        return words
