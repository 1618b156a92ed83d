"""Writes cases of crates/answer_cases/stdin as theorems on the definitions, the file Rows.antt of crates/proved_cases/proofs.

Each says of a case's query, day and answer, as they stand there, that `IsAnswer` holds, and is proved by computing it. Days.antt
there has the layout of messages. Where two cases have one comment, their theorems have one name, and the prover refuses them.
"""
import collections, re

from rattle import TOP

CASES = TOP / "crates/answer_cases/stdin"
ROWS = TOP / "crates/proved_cases/proofs/Rows.antt"
# Of how many headings, the first ones, cases are written.
HEADINGS = 6
IMPORTS = [
    ("Rattle.std.proofs.Common", "[] ◌++◌ refl"),
    ("Rattle.std.specs.Prelude", "codes"),
    ("Rattle.proved_cases.proofs.Days", "attributed broken cross executed executed_at named order replaced trade"),
    ("Rattle.proved_cases.proofs.Days", "at hex number price printable reference shares stock volume"),
    ("Rattle.proved_cases.proofs.Told", "Prints Reports on_days printed reported"),
]
# Of each form its name in proofs/Days.antt and its fields, and the time that it has if none is given.
EARLY, LATE = "09:30:00", "09:30:01.000000005"
FORMS = {
    "R": ("named stock", "00:00:00"), "A": ("order reference price", EARLY), "F": ("attributed reference price", EARLY),
    "U": ("replaced reference reference price", EARLY), "B": ("broken number", EARLY), "E": ("executed reference shares number", LATE),
    "C": ("executed_at reference shares number printable price", LATE), "P": ("trade shares price number", LATE),
    "Q": ("cross volume price number", LATE),
}  # fmt: skip
ESCAPES = str.maketrans({"\n": "\\n", "\0": "\\0", '"': '\\"', "\\": "\\\\"})
Case = collections.namedtuple("Case", "comment words query answer")


def quoted(text):
    return f'"{text.translate(ESCAPES)}"'


def part_of(word):
    """What stands in a theorem for a word of a day: a form, or bytes as digits, perhaps some times over."""
    form = re.fullmatch(r"([A-Z])\(([^()]*)\)(?:@([\d:.]+))?(?:#(\d+))?", word)
    if not form:
        digits, _, times = word.partition("*")
        return f"hex {quoted(digits * int(times or 1))}"
    letter, fields, time, locate = form.groups()
    said, usual = FORMS[letter]
    name, *kinds = said.split()
    fields = [re.sub(r"\\x(..)", lambda it: chr(int(it[1], 16)), field) for field in fields.split(",")]
    locate = fields.pop(0) if letter == "R" else locate or "7"
    given = [f"({kind} {quoted(it) if kind in ('stock', 'printable') else int(it)})" for kind, it in zip(kinds, fields)]
    return " ".join([name, f"(at {locate} {quoted(time or usual)})", *given])


def joined(parts):
    """Lists of bytes, a line each."""
    return "    (" + "\n    ++ ".join(parts or ["[]"]) + ")"


def theorem_of(case):
    word, proof = ("Reports", "reported") if case.answer.startswith("fault: ") else ("Prints", "printed")
    name = re.sub(r"\W+", "_", case.comment.lower().replace("'", "")).strip("_")
    return "\n".join([
        f"-- {case.comment}",
        f"{name} : {word} (codes {quoted(case.query)})",
        joined([part_of(it) for it in case.words]),
        joined([f"codes {quoted(line)}" for line in case.answer.splitlines(keepends=True)]),
        "unfolding on_days",
        f"{name} = {proof} refl",
    ])


def cases_of(part):
    """The cases of a part: a comment of one line, a day, a query, perhaps ways to answer it, and the answer."""
    form = r'# (.*)\nday ?(.*)\nquery "([^"\\]*)"\n(?:.*\n)*?----\n((?:.*\n)*)'
    found = [re.fullmatch(form, f"{case}\n").groups() for case in part.strip("\n").split("\n\n")]
    return [Case(comment, day.split(), query, answer) for comment, day, query, answer in found]


def written():
    """The text of the file by its path: the cases below their headings, and the names that they import."""
    parts = [part.split("\n", 1) for part in re.split(r"(?m)^# == ", CASES.read_text())[1 : HEADINGS + 1]]
    rows = [text for title, cases in parts for text in (f"-- ---- {title}", *map(theorem_of, cases_of(cases)))]
    uses = "".join(f"use {module}.{{{', '.join(names.split())}}}\n" for module, names in IMPORTS)
    source = "-- `python3 check/test_definitions.py write` writes this file from crates/answer_cases/stdin."
    return {ROWS: "\n\n".join([f"-- Worked rows.\n{source}\n{uses}", *rows]).replace("\n\n\n", "\n\n") + "\n"}
