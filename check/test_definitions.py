"""Holds the documents against the code: what has to be believed, which functions have no clause, what pages name and quote; and
sees that each edit applies. `python3 check/test_definitions.py write` writes the tables of docs/DEFINITIONS.md, and the proved cases;
with the path of a log, those of docs/TRUSTED.md too.

A definition of specs/ is of the kind `program` if a clause of a call that the program makes, or a member of one of its devices,
cites it, or cites a definition that rests on it; of the kind `crate` if another public contract rests on it; and of the kind
`proofs` if none does, or if its file is derived.
"""
import difflib, functools, pathlib, re, sys, unittest

import proved_cases
from rattle import TOP, cited_by, code_of, crates, definitions, edits_of, functions_of, ghost_members
from rattle import is_derived, is_product, is_silent_on_refusals, kit, named_in, rested_on, sources

PRODUCT = [crate for crate in crates() if is_product(crate)]
# The calls that the program makes, and its devices: what they promise is what the program does.
PROGRAM = {"command_line": ["start", "perform", "perform_blocks"], "runs": ["run", "run_blocks"],
           "arguments": ["command", "reading_fault", "explain"]}
DEVICES = ["sources/src/counted.rt", "block_scan/src/file_blocks.rt", "sinks/src/counted_sink.rt", "command_line/src/day_files.rt"]
# How the second line of a file of specs/ begins, or is, by the first of these kinds that one of its definitions is of.
SECONDS = {"program": "-- To be believed.", "crate": "-- To be believed of a crate used by itself", "proofs": "-- Derived: "}
BEGINS, ENDS = "<!-- {}: check/test_definitions.py writes what follows -->", "<!-- to here -->"
DOCUMENT, SUBJECT = TOP / "docs/DEFINITIONS.md", r"(?m)^### .*"


def functions():
    return [function for crate in PRODUCT for function in functions_of(crate)]


@functools.lru_cache(maxsize=None)
def kinds():
    """Of each definition its kind, and of what public contracts name the definitions."""
    public, of_clauses, program = set(), set(), set()
    calls = {(crate, name) for crate, names in PROGRAM.items() for name in names}
    assert calls <= {(it.crate, it.label) for it in functions()}, "a call of the program isn't there"
    for path in (path for crate in PRODUCT for path in sources(crate)):
        members = named_in(path, "\n".join(text for _, _, _, text, _ in ghost_members(path)))
        public |= members
        program |= members if str(path.relative_to(TOP / "crates")) in DEVICES else set()
    for it in functions():
        if it.is_public:
            of_clauses |= named_in(it.path, "\n".join(text for _, _, text in it.clauses))
        if (it.crate, it.label) in calls:
            program |= named_in(it.path, "\n".join(it.ensures))
    program_rests, public_rests = rested_on(program), rested_on(public | of_clauses)
    kind = {key: "program" if key in program_rests else "crate" if key in public_rests else "proofs" for key in definitions()[0]}
    return {key: "proofs" if is_derived(key) else it for key, it in kind.items()}, of_clauses | program


# docs/DEFINITIONS.md


def table(heads, rows):
    lines = ["| " + " | ".join(cell.replace("|", "\\|") for cell in row) + " |" for row in [heads, *rows]]
    return [lines[0], "|" + "---|" * len(heads), *lines[1:]] if rows else []


def rows_of(kind, group):
    bodies, comments = definitions()[:2]
    keys = [key for crate in group for key in bodies if key[0] == crate and kinds()[0][key] == kind]
    return table(["Name", "File", "In words"], [[f"`{key[2]}`", f"{key[0]}/specs/{key[1]}", comments[key]] for key in keys])


def members():
    """The members of the public traits, laws aside, and how the program's devices define them."""
    declared, defined = [], []
    for path in (path for crate in PRODUCT for path in sources(crate)):
        place = str(path.relative_to(TOP / "crates"))
        for owner, is_trait, name, text, comment in ghost_members(path):
            said = re.match(r" *ghost \w+(:| =) \{ ((?!\()[\s\S]*)\}", text)
            if is_trait and said and said[1] == ":":
                declared.append([f"`{name}`", f"`{owner}`, {place}", comment])
            elif said and place in DEVICES:
                defined.append([f"`{name}`", f"`{owner}`, {place}", f"`{' '.join(said[2].split())}`"])
    devices = [row for row in defined if row[0] in {row[0] for row in declared}]
    return [*table(["Member", "Trait", "In words"], declared), "", *table(["Member", "Of", "Is defined as"], devices)]


def written():
    """The text of each file that is written. The document's headings name the crates whose definitions stand below them."""
    text = DOCUMENT.read_text()
    by_subject = [(head, rows_of("program", words_in(head))) for head in re.findall(SUBJECT, text)]
    of_program = [line for head, rows in by_subject if rows for line in ("", head, *rows)]
    for part, lines in (("members", members()), ("program", of_program[1:]), ("crate", rows_of("crate", PRODUCT))):
        before, begin, rest = text.partition(BEGINS.format(part))
        assert ENDS in rest, f"docs/DEFINITIONS.md has no place for the {part}"
        text = "\n".join([before + begin, "", *lines, "", ENDS]) + rest.partition(ENDS)[2]
    return {DOCUMENT: text, **proved_cases.written()}


class Definitions(unittest.TestCase):
    def test_the_document_and_the_proved_cases_are_what_is_written(self):
        for path, text in written().items():
            changes = [*difflib.unified_diff(path.read_text().split("\n"), text.split("\n"), n=0, lineterm="")][2:]
            self.assertEqual([], changes[:9], f"{path}: run `python3 check/test_definitions.py write`")

    def test_each_file_says_who_has_to_believe_it(self):
        for module, second in definitions()[3].items():
            of_file = {kind for key, kind in kinds()[0].items() if key[:2] == module}
            is_so = next((kind for kind in ("program", "crate") if kind in of_file), "proofs")
            said = [kind for kind, begin in SECONDS.items() if second == begin or kind != "program" and second.startswith(begin)]
            self.assertEqual([is_so], said, f"{module}: the second line is {second!r}")

    def test_what_is_believed_is_said_and_rests_on_nothing_derived(self):
        kind, cited = kinds()
        for key in (key for key in kind if kind[key] != "proofs"):
            self.assertTrue(definitions()[1][key], f"{key} has no comment right above it")
            self.assertEqual([], [other for other in cited_by(key) if is_derived(other)], f"{key}, to be believed, rests on these")
        self.assertEqual([], [key for key in cited if is_derived(key)], "public contracts cite these, which are called derived")
        self.assertEqual([], [row for row in members() if "|  |" in row], "members of public traits without a comment")
        named = [crate for head in re.findall(SUBJECT, DOCUMENT.read_text()) for crate in words_in(head)]
        self.assertEqual(sorted({key[0] for key in kind if kind[key] == "program"}), sorted(named), "crates that have some; of a heading")


class NoClause(unittest.TestCase):
    def test_public_functions_that_say_nothing_are_listed(self):
        """The rows under a heading are these functions and no others, each with a reason."""
        silent = {"No clause at all": lambda it: not it.ensures, "No clause on what a refusal leaves": is_silent_on_refusals}
        for title, is_silent in silent.items():
            section = (TOP / "docs/NO_CLAUSE.md").read_text().partition(f"\n## {title}\n")[2].partition("\n## ")[0]
            rows = re.findall(r"(?m)^\| (`[^|]*) \| ([^|]*) \| (\S[^|]*) \|$", section)
            listed = {(crate, name) for names, group, _ in rows for crate in words_in(group) for name in words_in(names)}
            code = {(it.crate, it.label) for it in functions() if it.is_public and is_silent(it)}
            self.assertEqual((set(), set()), (code - listed, listed - code), f'docs/NO_CLAUSE.md lacks, or has without need, "{title}"')

    def test_each_edit_applies_and_has_the_name_of_a_function(self):
        for crate in PRODUCT:
            names = {it.name for it in functions_of(crate)}
            for edit in edits_of(crate):
                self.assertIsNone(kit().read_edit(str(edit), str(TOP / "crates" / crate))[1], edit)
                self.assertIn(edit.stem.partition("__")[0], names, edit)


TRUSTED, LOG = TOP / "docs/TRUSTED.md", TOP / "crates/itch_bars/out/build.log"
# The tables of docs/TRUSTED.md, and where a log of `rt check --list-axioms` in crates/itch_bars has what they are about.
WORDS = ["Word", "What it means", "In a build"], r"\b(?:axioms=\d+|native=\S+|\S+=trusted)"
FUNCTIONS = ["Function", "The program", "What is assumed of it"], r"(?m)^  ([\w:]+) +reached$"


def rows_of_table(heads):
    return {words_in(row[0])[0]: row[1:] for row in rows_below(TRUSTED, f"| {' | '.join(heads)} |")}


def trusted(log):
    """docs/TRUSTED.md as such a log has it. What a row says stays; a new one says nothing yet."""
    text = TRUSTED.read_text()
    for heads, pattern in (WORDS, FUNCTIONS):
        said = {name.partition("=")[0]: cells for name, cells in rows_of_table(heads).items()}
        rows = [[f"`{name}`", *said.get(name.partition("=")[0], ["", ""])] for name in re.findall(pattern, log)]
        text = re.sub(rf"(?m)^\| {heads[0]} \|.*\n(\|.*\n)+", lambda _: "\n".join(table(heads, rows)) + "\n", text)
    counts = "".join(f"    {line}\n" for line in re.findall(r"(?m)^axioms \w+: .*", log))
    return re.sub(r"(?m)(^    axioms .*\n)+", lambda _: counts, text)


class Trusted(unittest.TestCase):
    def test_the_page_says_what_the_log_says(self):
        """A build's log has the first three functions of each crate, and their number."""
        words, functions = (rows_of_table(heads) for heads, _ in (WORDS, FUNCTIONS))
        self.assertEqual([], [name for name, cells in {**words, **functions}.items() if not all(cells)], "their rows say nothing")
        said = re.search(r"(?ms)^== itch_bars\n.*?((?:^axioms [^\n]*\n)+)logic=proved ([^\n]*)$", LOG.read_text() if LOG.exists() else "")
        said or self.skipTest("bin/build has kept no log of a build here")
        for crate, first, count in re.findall(r"(?m)^axioms (\w+): (?:([\w:, ]+), \.\.\. \((\d+)|none)", said[1]):
            of_crate = [name for name in functions if name.startswith(f"{crate}::")]
            self.assertEqual((", ".join(of_crate[:3]), len(of_crate)), (first, int(count or 0)), "all of its functions")
        self.assertEqual(re.findall(WORDS[1], said[2]), [name for name, cells in words.items() if cells[1] == "stands"])

    def test_threads_share_what_the_kit_gives_alone(self):
        own = re.compile(r"\b(Atomic\w*|atomic|\w*Cell|cell|Mutex\w*|RwLock\w*|Condvar|Barrier|Once|OnceLock|LazyLock|Perch|static|unsafe|thread_local|mpsc|Rc)\b|\bOrdering::")
        for path in (path for crate in PRODUCT for path in sources(crate)):
            self.assertEqual([], [it[0] for it in own.finditer(re.sub(r"'static\b", "", code_of(path.read_text())))], path)
        for name, user in (("atomic_table", "dispatcher"), ("crossbeam_channel", "pipelines"), ("logbook", "block_scan")):
            self.assertEqual([user], [crate for crate in PRODUCT if name in crates()[crate]], name)


# What pages name and quote.

IN_CRATES = [path for path in (TOP / "crates").glob("*/*/**/*") if path.suffix in (".rt", ".antt") and "out" not in path.parts]
TEXTS = {path: path.read_text() for path in IN_CRATES}
OTHERS = [*(TOP / "fuzz").glob("*.rs"), TOP / "crates.txt"]
CODE = [code_of(text) if path.suffix == ".rt" else re.sub(r"--.*", "", text) for path, text in TEXTS.items()]
KNOWN = {word for text in CODE + [it.read_text() for it in OTHERS] for word in re.findall(r"\w+", text)}
KNOWN |= {edit.stem for crate in crates() for edit in edits_of(crate)} | {path.stem for path in TEXTS}
# what each crate is for, and what of it isn't proved, stands at the head of its first file
HEADS = {path: "\n".join(re.findall(r"(?m)^//! ?(.*)", text)) for path, text in TEXTS.items() if path.name in ("lib.rt", "main.rt")}
PAGES = HEADS | {path: path.read_text() for path in [*TOP.glob("*.md"), *TOP.glob("*/*.md")]}
OF_CODE = [*HEADS, *(TOP / "docs" / f"{name}.md" for name in ("PROOFS", "ARCHITECTURE", "GLOSSARY", "NO_CLAUSE"))]
ROOTS = ("crates", "docs", "bin", ".ci", "check", "fuzz", "bench", "data", "man")


def words_in(text):
    return re.findall(r"`([^`]+)`", re.sub(r"(?m)^    .*$", "", text))


def rows_below(page, heading):
    """The cells of the rows of each table with this heading; there has to be one."""
    found = re.findall(rf"(?m)^{re.escape(heading)}\n\|[-|]+\n((?:\|.*\n)+)", page.read_text())
    assert found, f"{page} has no table {heading}"
    return [[cell.strip() for cell in row.strip("|").split(" | ")] for part in found for row in part.strip().split("\n")]


class Pages(unittest.TestCase):
    def test_names_are_there(self):
        self.assertEqual(sorted(crates()), sorted(page.parent.parent.name for page, text in HEADS.items() if text), "crates with a head")
        words = [(str(page), word) for page in OF_CODE for word in words_in(PAGES[page])]
        names = [it for it in words if re.fullmatch(r"\w+(::\w+)*", it[1])]
        self.assertEqual([], [it for it in names if {*it[1].split("::")} - KNOWN], "the code has no such names")

    def test_paths_and_sections_are_there(self):
        for page, text in PAGES.items():
            if page.stem == "CHANGELOG":
                continue
            paths = [path for word in words_in(text) for path in word.split() if path.split("/")[0] in ROOTS and "/" in path]
            missing = [path for path in paths if not re.search(r"NAME|CRATE|/out/|\.\.$", path) and not (TOP / path).exists()]
            self.assertEqual([], missing, f"{page} names these")
            for document, sections in re.findall(r'`(docs/\w+\.md)`, ((?:"[^"]+"(?: and |, )?)+)', " ".join(text.split())):
                headings = re.findall(r"(?m)^#+ (.*)$", (TOP / document).read_text())
                for section in re.findall(r'"([^"]+)"', sections):
                    self.assertTrue(any(it.startswith(section) for it in headings), f"{page}: {document}, {section!r}")

    def test_quotes_stand_in_the_code(self):
        code = [" ".join(text.split()) for text in TEXTS.values()]
        for name, least in (("README.md", 1), ("CONTRIBUTING.md", 3), ("docs/PROOFS.md", 1)):
            blocks = re.findall(r"(?m)(?:^    .*\n)+", (TOP / name).read_text())
            quotes = [" ".join(block.split()) for block in blocks if re.search(r"[≡×⊎→]|^ +ensures", block)]
            self.assertGreaterEqual(len(quotes), least, name)
            for quote in quotes:
                self.assertTrue(any(quote in text for text in code), f"{name} quotes what isn't in the code: {quote[:80]}")

    def test_what_stands_where_does(self):
        """Tables that name files: each file is there, and defines what is said to stand in it."""
        proofs, map_of_code = TOP / "docs/PROOFS.md", TOP / "docs/ARCHITECTURE.md"
        rows = [row[1:2] for row in rows_below(proofs, "| Premise | Where it is | What follows |")]
        rows += [row[1:] for row in rows_below(map_of_code, "| Rule | Definition | Code |")]
        rows += [row[2:] for row in rows_below(map_of_code, "| Step | What happens | Where |")]
        kinds, folder = "fn|ghost|struct|trait|enum|const|abbrev|unfoldable|opaque|pub|record|data", None
        for group in (group for row in rows for cell in row for group in cell.split("; ")):
            names, _, where = group.rpartition(": ")
            for path in re.findall(r"[\w/]+\.(?:rt|antt)", where):
                folder = pathlib.Path("crates", path).parent if "/" in path else folder
                text = TEXTS.get(TOP / folder / pathlib.Path(path).name, "")
                lasts = [name.rpartition("::")[2] for name in words_in(names)]
                missing = [it for it in lasts if not re.search(rf"(?m)\b({kinds}) {it}\b|^{it} ", text)]
                self.assertTrue(text and not missing, f"{path} isn't there, or has no {missing}: {group}")

    def test_promises_have_their_clauses(self):
        page = TOP / "docs/PROOFS.md"
        rows = [(row[0], row[-1]) for row in rows_below(page, "| Crate | What is promised | Carried by |")]
        self.assertEqual(sorted(PRODUCT), sorted(words_in(name)[0] for name, _ in rows))
        for name, cell in rows:
            crate = words_in(name)[0]
            for group in cell.split("; "):
                labels, _, clauses = group.partition(": ")
                for label in words_in(labels):
                    found = [it for it in functions_of(crate) if it.label == label]
                    # a method that an impl gives for a trait has the trait's clauses
                    self.assertTrue(any(it.ensures or it.trait for it in found), f"{crate} has no {label} with a clause")
                    for clause in words_in(clauses):
                        self.assertTrue(any(it.has(clause) for it in found), f"{label} of {crate} has no clause {clause}")


if __name__ == "__main__" and sys.argv[1:2] == ["write"]:
    of_log = {TRUSTED: trusted(pathlib.Path(log).read_text()) for log in sys.argv[2:]}
    for path, text in {**written(), **of_log}.items():
        path.write_text(text)
