"""Holds help, the version, the page for `man` and README's table of options against what they are written from by `python3
check/test_texts.py write`, the code of the words and the limits; and the days of data/ against what days.py makes."""
import re, shutil, sys, unittest

from days import DATA, DAYS
from run import TOP, run

TEXTS = ("crates/arguments/src/arguments.rt", "crates/base/src/limits.rt", "man/itch_bars.1", "README.md")
CODE, LIMITS, PAGE, README = ((TOP / it).read_text() for it in TEXTS)


def found(pattern, text=CODE):
    """The one group of a pattern, as a string's text."""
    return re.sub(r"\\\n\s*", "", re.search(pattern, text)[1]).replace("\\n", "\n").replace('\\"', '"')


def constant(name):
    return found(rf'const {name}: &str =\s*"((?:[^"\\]|\\[\s\S])*)";')


def option(name, number, limit):
    """An option's name, what its number is called, the most that it may be, its default, and what help says of it."""
    most, default = found(rf"const {limit}: \w+ = (\w+);", LIMITS), found(rf'"(\d+)", {name.upper()}_HELP')
    return name, number, int(most.replace("_", "")), int(default), f"{constant(f'{name.upper()}_HELP')} [default: {default}]"


OPTIONS = [option("workers", "N", "MOST_WORKERS"), option("morsel", "BYTES", "LARGEST_MORSEL"),
           option("partitions", "N", "MOST_PARTITIONS"), option("gatherers", "N", "MOST_GATHERERS")]
VERSION, DATE, LOGIC = re.search(r"(\S+) \((\S+), proved in Rattle's logic (\S+)\)", constant("VERSION")).groups()
ABOUT, USAGE, AFTER = found(r'about\("(.*)"'), constant("USAGE"), constant("AFTER_HELP")
ARGUMENTS = [("<FILE>", found(r'"FILE", "(.*)"')), ("<QUERY>", found(r'asked = "(.*)"'))]
ROWS = [(f"--{name} <{number}>", text) for name, number, _, _, text in OPTIONS]
ENDS = [("-h, --help", "Print help"), ("-V, --version", "Print version")]


def help_text():
    """What the program prints, as clap lays it out."""
    arguments = "".join(f"  {name:7}  {text}\n" for name, text in ARGUMENTS)
    rows = [(f"    {name}", text) for name, text in ROWS] + ENDS
    options = "".join(f"  {name:22}" + text.replace("\n", "\n" + " " * 24) + "\n" for name, text in rows)
    return f"{ABOUT}\n\nUsage: {USAGE}\n\nArguments:\n{arguments}\nOptions:\n{options}\n{AFTER}\n"


def page():
    """The page for `man`: help in its form, and what only the page has."""
    entries = lambda rows: "".join(f".TP\n\\fB{name}\\fR\n{text}\n" for name, text in rows)
    bold, (first, *parts) = USAGE.replace("itch_bars", r"\fBitch_bars\fR"), AFTER.split("\n\n")
    text = f".SH NAME\nitch_bars - a{ABOUT[1:]}\n.SH SYNOPSIS\n{bold}\n"
    text += f".SH ARGUMENTS\n{entries(ARGUMENTS)}.SH OPTIONS\n{entries(ROWS + ENDS)}.PP\n{first}\n"
    for title, body in (it.split(":\n", 1) for it in parts):
        text += f".SH {title.upper()}\n.nf\n.in 0\n{body}\n.in\n.fi\n"
    begin = f'.TH ITCH_BARS 1 {DATE} "itch_bars {VERSION}" "User Commands"\n'
    own = PAGE[PAGE.index(".SH FILES\n") : PAGE.index(".SH VERSION\n")]
    return begin + text.replace("-", "\\-") + own + f".SH VERSION\nitch_bars {VERSION}, proved in Rattle's logic {LOGIC}\n"


def readme():
    text = README
    for name, number, most, default, _ in OPTIONS:
        text = re.sub(rf"(?m)^(\| `--{name} {number}` \| .* \|) .* \| .* \|$", rf"\1 1 to {most:,} | {default:,} |", text)
    return text


def written():
    return {"bin/help": help_text(), "bin/version": f"itch_bars {constant('VERSION')}\n", "man/itch_bars.1": page(), "README.md": readme()}


class Texts(unittest.TestCase):
    def test_texts_are_those_of_the_code(self):
        for name, text in written().items():
            self.assertEqual((TOP / name).read_text(), text, "run `python3 check/test_texts.py write`")
        self.assertLessEqual(max(map(len, help_text().split("\n"))), 80)
        for name, number, most, default, text in OPTIONS:
            self.assertIn(f" 1 to {most}", " ".join(text.split()))
            self.assertRegex(README, rf"(?m)^\| `--{name} {number}` \| .* \| 1 to {most:,} \| {default:,} \|$")

    def test_the_page_for_man(self):
        self.assertEqual([it for it in re.findall(r"(?m)^\\fI(\S+)\\fR$", PAGE) if "/out/" not in it and not (TOP / it).exists()], [])
        shutil.which("man") or self.skipTest("man, which reads the page, isn't installed")
        self.assertEqual(run("man", "--warnings", "-l", TOP / "man/itch_bars.1", env={"MANWIDTH": "80"}).errors, b"")

    def test_the_version(self):
        self.assertIn(f"\n## {VERSION}, {DATE}\n", (TOP / "CHANGELOG.md").read_text())
        self.assertIn(f"`logic {LOGIC}`", README)
        self.assertEqual(run("rt", "version").out.decode().split()[-1], LOGIC)

    def test_stored_days_are_those_that_are_made(self):
        self.assertTrue({it.name: it.read_bytes() for it in DATA.iterdir()} == {name: day() for name, day in DAYS.items()})


if __name__ == "__main__" and sys.argv[1:] == ["write"]:
    for name, text in written().items():
        (TOP / name).write_text(text)
