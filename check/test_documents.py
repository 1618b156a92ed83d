"""Types the commands that README, GUIDE and AUDIT show, with the recipes that they call, and compares what they print.

A command is a line of an indented block that begins with `$ `; a `\\` at its end joins the next line to it. The indented lines
below it, up to the next command, are all that it prints on standard output and standard error, to the byte; a line `..` stands for
any lines, or none. One shell types all commands of a document, in a copy of what they need. A recipe says in its second line which
tools it needs; a command that calls it is left out where one of these isn't installed, and the skip names it.
"""
import collections, os, pathlib, re, shlex, shutil, subprocess

from run import EXAMPLE, LONGEST, TOP, Case, program, run

DOCUMENTS = ["README.md", "docs/GUIDE.md", "docs/AUDIT.md"]
FOLDER = "/tmp/itch_guide"  # which the guide's first commands make
RECIPES = sorted(it for it in (TOP / "recipes").iterdir() if it.suffix != ".csv")
HEAD = re.compile(r"(?:#|--) \w.{20,}[.]\n(?:#|--) Needs: (?P<needs>\w[\w ]*(?:, [\w ]+)*)\n(?:#|--) Call: (?P<call>.+)\n")


class Command(collections.namedtuple("Command", "number words shown")):
    """A command with the number of its line, and the lines that are shown of it."""

    def typed(self, folder):
        """What the shell reads of it. What it prints goes to a file that has the line's number."""
        return f"eval {shlex.quote(self.words.replace(FOLDER, f'{folder}/work'))} >{folder}/prints/{self.number} 2>&1 </dev/null\n"

    def is_shown(self, printed):
        """Whether the lines that are shown stand for what was printed."""
        pattern = "".join(r"(?:.*\n)*" if it == ".." else re.escape(it) + r"\n" for it in self.shown)
        return self.shown != ("..",) and re.fullmatch(pattern, printed) is not None

    def missing(self):
        """The tools that its recipes need and that aren't installed: commands, or python3 with a module."""
        called = [it for it in RECIPES if f"recipes/{it.name}" in self.words]
        needs = {tool for it in called for tool in HEAD.match(it.read_text())["needs"].split(", ")}
        return " and ".join(sorted(it for it in needs if not is_there(*it.split(" with "))))


def is_there(command, module="sys"):
    return shutil.which(command) and (command != "python3" or run(command, "-c", f"import {module}").status == 0)


def commands_of(document):
    """The commands of a document, in order."""
    text = (TOP / document).read_text()
    for found in re.finditer(r"(?m)^    \$ ((?:.*\\\n)*.*)\n((?:(?:    (?!\$ ).*)?\n)*)", text):
        words, shown = re.sub(r"\\\n *", "", found[1]), re.findall(r"(?m)^    (.*)$", found[2])
        yield Command(text.count("\n", 0, found.start()) + 1, words, tuple(shown))


class Documents(Case):
    def test_commands(self):
        """Each command prints what its document shows."""
        for document in DOCUMENTS:
            self.type_all(document, [*commands_of(document)], self.folder / document)

    def type_all(self, document, commands, folder):
        top = folder / "top"
        (folder / "prints").mkdir(parents=True)
        for it in ("data", "recipes"):
            shutil.copytree(TOP / it, top / it)
        shutil.copytree(TOP / "bin", top / "bin", copy_function=os.symlink)
        if program() == os.environ.get("ITCH_BARS"):
            (top / "bin/itch_bars").unlink()
            (top / "bin/itch_bars").symlink_to(pathlib.Path(program()).resolve())
        missing = {it: it.missing() for it in commands}
        self.assertTrue(commands and RECIPES, f"{document} has no command, or there are no recipes")
        (folder / "script").write_text("".join(it.typed(folder) for it in commands if not missing[it]))
        path = f"{top}/bin:" if document == DOCUMENTS[2] else ""  # (the guide puts it on the path itself)
        environment = {**os.environ, "LC_ALL": "C.UTF-8", "PATH": path + os.environ["PATH"]}
        ended = subprocess.run(["timeout", "-k", "5", str(LONGEST), "bash", folder / "script"], cwd=top, env=environment)
        for it in commands:
            with self.subTest(place := f"{document}:{it.number}: {it.words}"):
                if missing[it]:
                    self.skipTest(f"{missing[it]} isn't installed, which {place} needs")
                path = folder / "prints" / str(it.number)
                self.assertTrue(path.exists(), f"not typed: the shell had ended with status {ended.returncode}")
                printed = path.read_text(errors="replace")
                self.assertTrue(it.is_shown(printed), f"it prints\n{printed}and the document shows\n" + "\n".join(it.shown))
        self.assertNotEqual(ended.returncode, 124, f"{document}: the last command that was typed hung")


class Claims(Case):
    def test_bits(self):
        """README's numbers: each 101st bit of the example is changed, one at a time."""
        day, sales, found = EXAMPLE.read_bytes(), run(program(), EXAMPLE, "sales"), {"fault": 0, "same": 0, "other": 0}
        for at in range(0, 8 * len(day), 101):
            changed = self.file("day", day[: at // 8] + bytes([day[at // 8] ^ 1 << at % 8]) + day[at // 8 + 1 :])
            ran = run(program(), changed, "sales")
            found["fault" if ran.status else "same" if ran == sales else "other"] += 1
        text = " ".join((TOP / "README.md").read_text().split()).replace("*", "")
        told = re.search(r"(\d+) of the (\d+) files gave a fault, (\d+) the same answer, and (\d+) another answer", text)
        self.assertEqual([int(it) for it in told.groups()], [found["fault"], sum(found.values()), found["same"], found["other"]])

    def test_slips(self):
        """Each query of the guide's table of slips gives the fault of its row."""
        rows = re.findall(r"^\| `(fault: query .*?)` \| `(.*?)` \|", (TOP / "docs/GUIDE.md").read_text(), re.M)
        self.assertEqual(len(rows), 6)
        for fault, query in ((fault, query) for fault, queries in rows for query in queries.split("`, `")):
            ran = run(program(), EXAMPLE, query)
            self.assertRegex(f"{ran.status} {ran.errors.decode()}", f"^2 {fault.replace('N', '[0-9]+')}\n$", query)
