"""What documents and crates name is there: definitions, files, sections. A name means one thing."""

import re
import tempfile
import unittest
from collections import Counter
from pathlib import Path

from tests.playing import TOP

from checks import proof_lines
from checks.definitions import Key, Repository, below, dependencies

CRATES, DOCS = TOP / "crates", TOP / "docs"
OTHER_PAGES = ("README.md", "CONTRIBUTING.md", "CHANGELOG.md", "bench/README.md", "checks/README.md",
               "bench/COST.md", "crates/README.md", "examples/README.md")
PAGES = sorted(TOP.glob("docs/*.md")) + [TOP / name for name in OTHER_PAGES]

# `Module.name`, or a type with a field, a variant or a ghost member; and `Module.antt`.
NAME = re.compile(r"`(?:[\w/]*/)?([A-Z]\w*)\.([^\s`.()]+)`")
PAGE_NAMES = {page.stem for page in PAGES} | {"FILE", "NAME"}
PROVED = re.compile(r"^\s*(?:abbrev |unfoldable )?pub (?:record |data )?([^\s:]+)", re.M)

# A page that is named by its path, and what a link of Markdown points to.
PAGE_LINK = re.compile(r"`((?:[\w-]+/)*[A-Z_]+\.md)`")
MARKDOWN_LINK = re.compile(r"\]\((?!https?:|#)([^)#\s]+)")
SECTION = re.compile(r"^##+ (.*)$", re.M)
QUOTED = r'"([^"]+)"'
CITED = re.compile(rf"(?:docs/)?([A-Z]+)\.md`?,\s+({QUOTED}(?:(?:,| and|, and)\s+{QUOTED})*)")
CITED_HERE = re.compile(r"\(\"([A-Z][^\"]+)\"(?: below)?\)")
QUOTED_CODE = re.compile(r"From\s`([^`]+)`,[^:]*:\n\n```rust\n(.*?)^```$", re.M | re.S)
# The code of a page that is antt, with the file that it is from.
ANTT_QUOTED = re.compile(r"From\s`([^`]+)`[^:]*:\n\n```antt\n(.*?)^```$", re.M | re.S)
# `name`, or several, in a file of proofs or definitions, maybe of another crate.
LEMMAS = re.compile(r"((?:`[\w-]+`,?\s+)+)(?:in\s+|of\s+|\(|)`(?:(inp_\w+)/)?(proofs|specs)/(\w+)\.antt`")
# What a file of proofs hands on, and what a file takes from one that does.
HANDED_ON = re.compile(r"^(?:unfoldable )?pub use Rattle\.[\w.]+\.\{(.*)\}$", re.M)
FROM_COMMON = re.compile(r"^use Rattle\.(\w+)\.proofs\.Common\.\{(.*)\}$", re.M)
# A row of a table of crates.
CRATE_ROW = re.compile(r"^\| `(inp_\w+)` \| (.*) \|$", re.M)
COMMENTED = re.compile(r"^\s*(?:--|//[/!]?)(?: (.*))?$", re.M)
FILE = re.compile(r"`(?:crates/)?(?:(inp_\w+)/)?((?:proofs|specs|src)/(?:\w+/)*\w+\.(?:antt|rt))`")
MARK = re.compile(r"^\s*(?:--|//[/!]?) ?", re.M)
# A method, a variant or a constant of a type, as code has it. The blocks that declare them, and a type's other name.
MEMBER = re.compile(r"\b([A-Z]\w+)::(\w+)")
BLOCK = re.compile(r"^(?:pub(?:\(crate\))? )?(?:impl|trait|enum)\b([^{]*?)\{\n(.*?)^\}", re.M | re.S)
DECLARED = re.compile(r"\b(?:fn|const) (\w+)|^\s+([A-Z]\w*)(?:\(|,| \{)", re.M)
ALIAS = re.compile(r"^pub type (\w+) = (\w+)", re.M)
# A fact, named as all facts are whose name is no verb.
FACT = re.compile(r"`(?:\w+\.)?((?:Is|Are|Has)[A-Z]\w*)`")
# A row of the way of an event: its functions, and how many they are.
WAY_ROW = re.compile(r"^\| [a-z' ]+ \| ((?:`[\w:]+`(?:, )?)+) \| (\d+) \|$", re.M)
# A group of crates: in the page of crates, and in crates.txt.
SECTION_ROWS = re.compile(r"^## (.*)$\n((?:(?!## ).*\n)*)", re.M)
GROUP_ROWS = re.compile(r"^# (.*)\n((?:[^#\n].*\n)+)", re.M)


def given():
    """What each module of definitions or proofs gives, and each type: a name -> the names after its dot."""
    repository, names = Repository(TOP), {}
    for crate in repository.crates:
        for path in repository.paths(crate, "specs", "antt") + repository.paths(crate, "src", "rt"):
            file = repository.file(crate, path)
            module = names.setdefault(path.rsplit("/", 1)[-1].replace(".antt", ""), set())
            module.add("antt")
            for name, item in file.items.items():
                module.update([name, *item.variants])
                names.setdefault(name, set()).update(item.fields + item.variants)
    for path in TOP.glob("crates/*/proofs/**/*.antt"):
        names.setdefault(path.stem, set()).update(["antt", *PROVED.findall(path.read_text())])
    return names


def names_of(text):
    """The names with a dot that a page means."""
    return [(first, name) for first, name in NAME.findall(text) if first not in PAGE_NAMES]


def lemmas(text):
    """The names that a text places in a file of proofs or definitions, with the crate, if named."""
    for names, crate, kind, stem in LEMMAS.findall(text):
        for name in re.findall(r"`(?!inp_)([\w-]+)`", names):
            yield name, crate, f"{kind}/{stem}.antt"


def files_of_crates(*kinds):
    """The files of all crates of some kinds, or of all, each with its crate's name."""
    for kind in kinds or ("src/**/*.rt", "specs/**/*.antt", "proofs/**/*.antt"):
        for path in sorted(CRATES.glob(f"*/{kind}")):
            yield path.relative_to(CRATES).parts[0], path


def comments(path):
    return " ".join(COMMENTED.findall(path.read_text()))


def promised(text):
    """The words in code that a table of crates says of each crate, with the crate."""
    for crate, says in CRATE_ROW.findall(text):
        for code in re.findall(r"`([^`]+)`", says):
            yield from ((crate, name) for name in re.findall(r"[A-Za-z_]\w+", code) if name[:4] != "inp_")


def facts():
    """The facts that the definitions and the lemmas of each crate have."""
    found = {}
    for crate, path in files_of_crates("specs/**/*.antt", "proofs/**/*.antt"):
        found.setdefault(crate, set()).update(PROVED.findall(path.read_text()))
    return found


def said_of_crates():
    """The texts that are about a crate: its comments, and its row of the page of what is proved."""
    yield from ((crate, comments(file)) for crate, file in files_of_crates("src/**/*.rt", "specs/**/*.antt"))
    yield from CRATE_ROW.findall((DOCS / "PROVED.md").read_text())


def stands_in(name, path):
    return path.is_file() and re.search(rf"(?<![\w-]){re.escape(name)}(?![\w-])", path.read_text())


def shared(names_of_crates):
    """The names that stand in two crates, each with its crates."""
    found = {}
    for crate, name in names_of_crates:
        found.setdefault(name, set()).add(crate)
    return {name: sorted(crates) for name, crates in found.items() if len(crates) > 1}


def sections(page):
    return SECTION.findall(page.read_text())


def cited(text):
    """The sections of pages that a text cites: the page's name, and the section's."""
    for page, names, *_ in CITED.findall(re.sub(r"\s+", " ", MARK.sub("", text))):
        yield from ((page, name) for name in re.findall(QUOTED, names))


def unindented(code):
    return "\n".join(line.strip() for line in code.strip("\n").split("\n"))


def quoted(text):
    """The pieces of code that a page quotes, each with its file: what blank lines and lines `// ..` part."""
    for path, code in QUOTED_CODE.findall(text):
        for piece in re.split(r"^\s*(?:// \.\.)?$", code, flags=re.M):
            if piece.strip():
                yield path, unindented(piece)


def has_function(text, name):
    """Does a source file have a function, or a method of this type?"""
    *kind, function = name.split("::")
    if kind:
        text = "\n".join(re.findall(rf"^impl\b[^{{\n]*\b{kind[0]}\b[^{{\n]*{{\n(.*?)^}}", text, re.M | re.S))
    return re.search(rf"^\s*(?:pub(?:\(crate\))? )?fn {function}\b", text, re.M) is not None


# What is named: where, what, and whether it is there


def definitions_of_pages():
    names = given()
    for page in PAGES:
        for first, name in names_of(page.read_text()):
            yield page, f"{first}.{name}", name in names.get(first, ())


def lemmas_of_pages():
    for page in PAGES:
        for name, crate, path in lemmas(page.read_text()):
            places = CRATES.glob(f"{crate or '*'}/{path}")
            yield page, f"{name} in {path}", any(stands_in(name, place) for place in places)


def lemmas_of_crates():
    for crate, file in files_of_crates():
        for name, other, path in lemmas(comments(file)):
            yield file, f"{name} in {path}", stands_in(name, CRATES / (other or crate) / path)


def files_that_crates_name():
    for crate, file in files_of_crates():
        for other, path in FILE.findall(comments(file)):
            yield file, path, (CRATES / (other or crate) / path).is_file()


def files_that_pages_name():
    """Where a page names no crate with it, it stands in one of them."""
    for page in PAGES:
        for crate, path in FILE.findall(page.read_text()):
            if "/FILE/" not in path:
                yield page, path, any(CRATES.glob(f"{crate or '*'}/{path}"))


def promises_of_crates():
    words = {}
    for crate, file in files_of_crates("src/**/*.rt", "specs/**/*.antt"):
        words.setdefault(crate, set()).update(re.findall(r"\w+", file.read_text()))
    for crate, name in promised((DOCS / "PROVED.md").read_text()):
        yield "PROVED.md", f"{name} of {crate}", name in words[crate]


def facts_of_crates():
    """Each is one of the crate, or of one below it."""
    there = facts()
    for crate, text in said_of_crates():
        known = set().union(*(there.get(other, set()) for other in below(TOP, crate)))
        yield from ((crate, name, name in known) for name in FACT.findall(text))


def facts_of_pages():
    known = set().union(*facts().values())
    for page in PAGES:
        yield from ((page, name, name in known) for name in FACT.findall(page.read_text()))


def links_of_pages():
    """What a page links to stands beside the page, below the top, or among the pages of docs/."""
    for page in PAGES:
        text = page.read_text()
        for link in PAGE_LINK.findall(text) + MARKDOWN_LINK.findall(text):
            yield page, link, any((place / link).exists() for place in (page.parent, TOP, DOCS))


def sections_that_are_cited():
    there = {page.stem: sections(page) for page in DOCS.glob("*.md")}
    for path in [*(path for _, path in files_of_crates()), *PAGES]:
        for page, name in cited(path.read_text()):
            yield path, f'{page}.md, "{name}"', name in there.get(page, ())


def sections_of_the_same_page():
    for page in PAGES:
        for name in CITED_HERE.findall(re.sub(r"\s+", " ", page.read_text())):
            yield page, name, name in sections(page)


def members():
    """What each type of the crates and of the package for Rust has: functions, variants and constants."""
    sources = [path.read_text() for _, path in files_of_crates("src/**/*.rt")]
    sources += [path.read_text() for path in TOP.glob("bindings/rust/src/*.rs")]
    found = {}
    for head, body in (block for text in sources for block in BLOCK.findall(text)):
        names = [name for pair in DECLARED.findall(body) for name in pair]
        for kind in re.findall(r"\b[A-Z]\w*", head):
            found.setdefault(kind, set()).update(names)
    for name, kind in (alias for text in sources for alias in ALIAS.findall(text)):
        found.setdefault(name, set()).update(found.get(kind, ()))
    return found


def members_of_pages():
    there = members()
    for page in PAGES:
        code = " ".join(re.findall(r"`([^`\n]+)`", page.read_text()))
        named = [(kind, name) for kind, name in MEMBER.findall(code) if kind in there]
        yield from ((page, f"{kind}::{name}", name in there[kind]) for kind, name in named)


def callers():
    for path, piece in quoted((DOCS / "CALLING.md").read_text()):
        yield path, piece, f"\n{piece}\n" in f"\n{unindented((TOP / path).read_text())}\n"


def instances():
    for path, code in ANTT_QUOTED.findall((DOCS / "ARCHITECTURE.md").read_text()):
        yield path, code, code in (TOP / path).read_text()


def functions_of_the_way():
    sources = [path.read_text() for _, path in files_of_crates("src/**/*.rt")]
    for functions, count in WAY_ROW.findall((DOCS / "ARCHITECTURE.md").read_text()):
        names = re.findall(r"`([\w:]+)`", functions)
        yield functions, f"{count} functions", int(count) == len(names)
        yield from ((functions, name, any(has_function(text, name) for text in sources)) for name in names)


# What names things, and how many it names at least.
NAMED = {definitions_of_pages: 400, lemmas_of_pages: 8, lemmas_of_crates: 30, files_that_crates_name: 80,
         files_that_pages_name: 100, promises_of_crates: 80, facts_of_crates: 50, facts_of_pages: 0,
         links_of_pages: 100, sections_that_are_cited: 100, sections_of_the_same_page: 0, callers: 20,
         members_of_pages: 200, instances: 0, functions_of_the_way: 20}

# A row of the definitions: its name, the word or how many words stand before, for whom, and what its words
# are.
TERM = r"(\((?:[^()]|\([^()]*\))*\)|\[\]|\w+)\s"
COMMAND_ROW = re.compile(rf'command_line \(codes "(\w+)"\) \((.*?) role\) {TERM}')
LINE_ROW = re.compile(rf'^line_row \w+ =\s+item_line \(codes "(\w+)"\) (\d) {TERM}', re.M)
FIELDS = re.compile(r"^(\w+) = (.* ∷ \[\])$", re.M)
GROUPS = {"is_source": "source", "is_reading": "client, tap, joy", "is_calling": "client, tap", "is_tap": "tap",
          "is_client": "client", "is_owner": "owner"}
# A command that a page has in a row for each role.
APART = {"is_tap role || is_joy": ("tap", "joy")}
FORMS = {"any_moment": "MOMENT", "Kind": "TYPE", "Code": "CODE", "CodeOf": "CODE", "Signed": "SIGNED",
         "count": "NUMBER", "Number": "NUMBER", "Positive": "NUMBER", "Bits": "NUMBER", "Clock": "CLOCK",
         "Name": "NAME", "File": "FILE"}
# Lines that a page writes with the words that a field can have.
WRITTEN = {"clock OtherClock NUMBER": {"clock realtime NUMBER", "clock boottime NUMBER"}}


def forms(term, lists):
    """The words of a line as a page has them, of the fields of its row."""
    term = lists.get(term, term.strip("()"))
    names = [part.strip().replace("field.", "").split(" ")[0] for part in term.split("∷")]
    return [FORMS.get(name, name) for name in names if name != "[]"]


def command_rows(actions, fields):
    """The commands of the definitions, as a page has them, each with the actors that have it."""
    lists = dict(FIELDS.findall(fields) + FIELDS.findall(actions))
    for word, group, term in COMMAND_ROW.findall(actions):
        for role in APART.get(group, (GROUPS.get(group),)):
            yield " ".join([word, *forms(term, lists)]), role


def line_rows(lines, fields):
    """The lines of the definitions that are no actions, as a page has them."""
    lists = dict(FIELDS.findall(fields))
    for word, first, term in LINE_ROW.findall(lines):
        if "Never" not in term and "Version" not in term:
            line = " ".join([word if first == "1" else f"filter {word}", *forms(term, lists)])
            yield from WRITTEN.get(line, {line})


def table(page, heading):
    """The rows of a table of a page, each as its cells, by the heading of its first column."""
    rows = page.split(f"\n| {heading} |", 1)[1].split("\n\n", 1)[0].split("\n")[2:]
    return [[cell.strip() for cell in row.strip("|").split(" | ")] for row in rows]


def is_proved(repository, key):
    """Whether a number is proved to be the one that is written beside it."""
    rows = repository.file(key.crate, key.path).rows
    return any(row.startswith(f"const _: () = prove!({key.name} ") and " == " in row for row in rows)


def anchors(page):
    """How links name the sections of a page."""
    return [(name, re.sub(r"[^a-z0-9 -]", "", name.lower()).replace(" ", "-")) for name in sections(page)]


def taken_words(text):
    """What a file of proofs takes from a file of common words: the crate, and each name as that has it."""
    for crate, braces in FROM_COMMON.findall(text):
        yield from ((crate, name.split(" as ")[0].strip()) for name in braces.split(","))


class CommonWords(unittest.TestCase):
    """A word has one path; only `proofs/Common.antt` of a crate hands words on, as in the toolchain."""

    def test_each_is_taken_by_three_files_and_nothing_else_is_handed_on(self):
        texts = {path: path.read_text() for _, path in files_of_crates("proofs/**/*.antt")}
        counts = Counter(word for text in texts.values() for word in taken_words(text))
        for path, text in texts.items():
            lines = [line for line in text.splitlines() if line and not line.startswith("--")]
            is_common, crate = path.name == "Common.antt", path.relative_to(CRATES).parts[0]
            self.assertEqual([], [line for line in lines if bool(HANDED_ON.match(line)) != is_common], path)
            names = [name.split(" as ")[-1].strip() for braces in HANDED_ON.findall(text)
                     for name in braces.split(",")]
            self.assertEqual([], [name for name in names if counts[crate, name] < 3], path)


class ProofLines(unittest.TestCase):
    """Proofs rewrite by `rw`, and can be read on a screen."""

    def test_no_line_is_wide_and_few_congruences_are_written_out(self):
        proofs = proof_lines.of(TOP)
        self.assertEqual([], proofs.wide)
        self.assertLessEqual(proofs.written_out, 1200)
        self.assertGreaterEqual(proofs.rewrites_in_a_thousand, 60)

    def test_what_is_counted(self):
        said = "use A.{\n  one,\n  two,\n}\n-- ap (λ\nabc = ap\n  (λ x. f x) e\n  ∙ rw e (subst (λ x. P x) e t)\npub use B.{c}\n"
        with tempfile.TemporaryDirectory() as folder:
            path = Path(folder) / "Some.antt"
            path.write_text(said + "w" * 111 + "\n" + "w " * 60 + "\n")
            proofs = proof_lines.ProofLines([path])
        self.assertEqual((5, 205, 2, 1, [f"{path}:11"]),
                         (proofs.lines, proofs.characters, proofs.written_out, proofs.rewrites, proofs.wide))


class Names(unittest.TestCase):
    def test_what_is_named_is_there(self):
        for names, least in NAMED.items():
            with self.subTest(names.__name__):
                found = list(names())
                self.assertEqual([], [(str(where), name) for where, name, is_there in found if not is_there])
                self.assertGreater(len(found), least)

    def test_the_way_of_an_event_is_counted(self):
        page = (DOCS / "ARCHITECTURE.md").read_text()
        names = [name for row, _ in WAY_ROW.findall(page) for name in re.findall(r"`([\w:]+)`", row)]
        self.assertEqual(len(names), len(set(names)))
        self.assertEqual([str(len(names))], re.findall(r"through (\d+) functions on one thread", page))

    def test_the_page_of_crates_has_each_in_its_group(self):
        page, list_of_crates = (CRATES / "README.md").read_text(), (TOP / "crates.txt").read_text()
        on_page = [(group.lower(), re.findall(r"^\| `(\w+)` \| .+ \|$", rows, re.M))
                   for group, rows in SECTION_ROWS.findall(page)]
        wanted = [(group, re.findall(r"^(\w+)[ :]", rows, re.M))
                  for group, rows in GROUP_ROWS.findall(list_of_crates)]
        self.assertEqual(wanted, on_page)
        self.assertEqual(set(dependencies(TOP)), {crate for _, crates in on_page for crate in crates})

    def test_no_name_is_defined_in_two_crates(self):
        repository = Repository(TOP)
        names = [(crate, name) for crate in repository.crates
                 for path in repository.paths(crate, "specs", "antt")
                 if not path.endswith("Examples.antt") and "/examples/" not in path
                 for name in repository.file(crate, path).items]
        self.assertGreater(len(names), 1_500)
        self.assertEqual({}, shared(names))

    def test_each_page_is_named_by_another(self):
        named = {link.rsplit("/", 1)[-1] for page in PAGES for link in PAGE_LINK.findall(page.read_text())
                 if link != page.name}
        self.assertEqual(set(), {page.name for page in PAGES} - named)

    def test_the_contents_of_the_rules_are_their_sections(self):
        rules = (DOCS / "RULES.md").read_text()
        for page in (DOCS / f"{name}.md" for name in ("RULES", "READER", "RUNS")):
            links = re.findall(r"\[([^\]]+)\]\(#([^)]+)\)", page.read_text())
            self.assertEqual(anchors(page), links, page.name)
            led = re.findall(rf"\[([^\]]+)\]\({page.name}#([^)]+)\)", rules)
            self.assertEqual([] if page.stem == "RULES" else anchors(page), led, page.name)


class Numbers(unittest.TestCase):
    def test_each_number_stands_twice_but_those_that_the_page_names(self):
        repository = Repository(TOP)
        reached = repository.reached([Key("inp_tool", "src/top.rt", "inputplay")])
        numbers = [key for key, item in reached.items() if item.kind == "const"]
        self.assertGreater(len(numbers), 40)
        once = {key.name for key in numbers if not is_proved(repository, key)}
        paragraph = re.search(r"Beside each constant.*?\n\n", (DOCS / "PROMISES.md").read_text(), re.S)[0]
        self.assertEqual(once, set(re.findall(r"`(\w+)`", paragraph)))


class Tables(unittest.TestCase):
    """The tables of docs/FORMATS.md are the rows of the definitions."""

    def setUp(self):
        specs = CRATES / "inp_record" / "specs"
        self.read = {name: (specs / f"{name}.antt").read_text() for name in ("Action", "Line", "Field")}
        self.page = (DOCS / "FORMATS.md").read_text()

    def test_commands(self):
        rows = set(command_rows(self.read["Action"], self.read["Field"]))
        said = {(command, of) for commands, of, *_ in table(self.page, "Command")
                for command in re.findall("`([^`]+)`", commands)}
        self.assertEqual((said, 30), (rows, len(rows)))

    def test_lines(self):
        rows = set(line_rows(self.read["Line"], self.read["Field"]))
        said = {line for lines, *_ in table(self.page, "Line") for line in re.findall("`([^`]+)`", lines)}
        self.assertEqual((said, 19), (rows | {"do NAME .."}, len(rows)))


SOURCE = """impl Frames for Handler {
    fn pass(&mut self) {}
}
impl Batch {
    pub fn add(&mut self) {}
}
// fn none()
"""
# What is looked for, and whether it is there: a search that finds all would find each name of a page.
THERE = (
    (lambda name: has_function(SOURCE, name), {"Handler::pass": True, "Batch::add": True, "pass": True,
                                               "Handler::add": False, "Batch::pass": False, "none": False}),
    (lambda name: name in given()["Past"], {"is_open": True, "is_opened": False}),
    (lambda crate: "IsRun" in facts()[crate], {"inp_runs": True, "inp_model": False}),
)
CITING = '-- one (docs/RULES.md,\n-- "Queries" and\n-- "What a\n-- device has"); `docs/FORMATS.md`, "Words"'
QUOTING = "A caller. From\n`a.rt`, `f`:\n\n```rust\nfn f() {\n    g();\n    // ..\n}\n\nfn g() {}\n```\n"


class Found(unittest.TestCase):
    def test_what_is_there(self):
        for is_there, names in THERE:
            self.assertEqual(names, {name: bool(is_there(name)) for name in names})

    def test_what_is_cited_and_quoted(self):
        sections = [("RULES", "Queries"), ("RULES", "What a device has"), ("FORMATS", "Words")]
        self.assertEqual(sections, list(cited(CITING)))
        self.assertEqual(["fn f() {\ng();", "}", "fn g() {}"], [piece for _, piece in quoted(QUOTING)])
        self.assertEqual({"one": ["a", "b"]}, shared([("a", "one"), ("a", "two"), ("b", "one"), ("a", "one")]))
