"""Runs the program as its users do: its words, statuses and streams, which file it opens and how it reads it; and over devices that
fail, are interrupted, give or take few bytes, are closed or full, or change meanwhile. What comes must be the whole answer, or one
line and its status with nothing of an answer; where the output fails, the first bytes up to the number that the line says. What a
clause says of each source and sink isn't tried again here: this is `main`, std and the system.
"""
import itertools, os, re

from itch import SECOND, executed, frames_of, order, trade
from run import EXAMPLE, TOP, Case, Ran, program, run

DAY = order(1, 7, 34_201 * SECOND + 3) + executed(1, 9, 7, 34_201 * SECOND + 5, 40)
HEADER = "time,symbol,kind,price,shares,number\n"
SALE = HEADER + "09:30:01.000000005,#7,E,410.5000,40,9\n"
READING, WRITING = "fault: reading failed\n", "fault: writing failed after 0 bytes\n"
END = "fault: place 38: message runs past the end\n"
# By blocks of one thread and of several, in morsels, and from the standard input.
WAYS = ONE, SEVERAL, MORSELS, INPUT = "--workers 1", "--workers 4 --gatherers 3", "--morsel 50", "-"
# Words that are wrong, the status and the lines that they give. Other words and their lines are cases of `answer_cases`.
USAGE = """\n\nUsage: itch_bars [OPTIONS] <FILE> "<QUERY>"\n\nFor more information, try '--help'.\n"""
FAULTS = [("cut_off sales", 1, END), ("day bars", 2, "fault: query ends too early\n"), ("no_such_file 'bars 0 s'", 4, READING),
          ("day", 2, f"error: the following required arguments were not provided:\n  <QUERY>{USAGE}"),
          ("day $'sales\\xff'", 2, f"error: a word is not valid UTF-8{USAGE}")]


class OfProgram(Case):
    def setUp(self):
        super().setUp()
        self.day, self.cut_off = self.file("day", DAY), self.file("cut_off", DAY[:40])

    def of(self, *words, **more):
        return run(program(), *words, cwd=self.folder, **more)

    def over(self, way, file, query="sales", **preload):
        """Asks for something of a file, by one of the ways: what came, and what was done."""
        words, given = (["-", query], file) if way == INPUT else ([file, query, *way.split()], b"")
        return self.counted(program(), *words, input=given, preload=preload, cwd=self.folder)

    def shell(self, line):
        """Runs a line of the shell, whose $0 is the program."""
        return run("bash", "-c", line, program(), cwd=self.folder)

    # ---- words, statuses and streams

    def test_answers_and_faults(self):
        for words, answer in (("./day sales --workers 64 --morsel=1 --partitions 256", SALE), ("<(:) sales <day", HEADER),
                              ("day 'sales as of 09:30:01'", HEADER), ("- sales", HEADER), ("- sales <day", SALE)):
            self.gives(self.shell(f'exec "$0" {words}'), 0, answer)
        for words, status, errors in FAULTS:
            self.gives(self.shell(f'exec "$0" {words}'), status, "", errors)
        for text, words in (("help", "--help"), ("help", "day -h"), ("version", "--version"), ("version", "day sales -V")):
            self.gives(self.of(*words.split()), 0, (TOP / "bin" / text).read_bytes())

    def test_examples_of_help(self):
        self.gives(self.shell(f"cp '{EXAMPLE}' day.itch && gzip -k day.itch"))
        examples = re.search(r"\nExamples:\n((?:  .*\n)+)", self.of("--help").out.decode())[1].splitlines()
        self.assertGreater(len(examples), 2)
        for it in examples:
            ran = self.shell(f'program=$0; itch_bars() {{ "$program" "$@"; }}\n{it}')
            self.assertEqual((ran.status, ran.errors, ran.out.count(b"\n") > 1), (0, b"", True), it)

    # ---- files

    def test_which_file_is_opened_and_how_it_is_read(self):
        """The file that is named is opened once, as it is named, and nothing where that is `-`. A regular file is read by blocks if
        the words don't give a size of morsels, and else in order, as are a pipe and the standard input."""
        for name, day in (("-x", DAY), ("--help", DAY), ("-", EXAMPLE.read_bytes())):
            self.file(name, day)
        for words, name, opened, kind in (
            ("day", "day", 1, "pread"), ("-- -x", "-x", 1, "pread"), ("--workers=64 -- --help", "--help", 1, "pread"),
            ("--morsel=50 day", "day", 1, "read"), ("--morsel=1048576 -- --help", "--help", 1, "read"),
            ("/dev/stdin", "/dev/stdin", 1, "read"), ("-", "-", 0, "read"), ("-- -", "-", 0, "read"),
        ):
            ran, report = self.counted(program(), *words.split(), "sales", input=DAY, preload={"NAME": name}, cwd=self.folder)
            self.gives(ran, 0, SALE)
            self.assertEqual((len(report.of("open")), {it.kind for it in report.of("read", "pread")}), (opened, {kind}), words)

    def test_what_is_no_day(self):
        """Folders, which can be opened, a file of the system whose readings fail, one without a length, and one that is too long."""
        for way in ONE, "--workers 64", "--morsel 1":
            for name in (".", "/proc/self/mem", "no_such_file", "", "day/", "/dev/null/none"):
                self.gives(self.of(name, "sales", *way.split()), 4, "", READING)
            self.gives(self.of("/proc/version", "sales", *way.split()), 1, "", END.replace("38", "0"))
        self.gives(self.shell('"$0" - sales <.'), 4, "", READING)
        os.truncate(self.day, (64 << 30) + 1)
        self.gives(self.of(self.day, "sales"), 1, "", "fault: file is longer than 68719476736 bytes\n")

    def test_readings_that_fail(self):
        """Each reading of a byte fails in turn, by an error of the device, an interruption, or want of bytes, until a run has fewer;
        those behind it would be well, and a write takes few bytes."""
        failed, sales = Ran(4, b"", READING.encode()), Ran(0, SALE.encode(), b"")
        for way, error in itertools.product(WAYS, (5, 4, 11)):
            for reading in itertools.count(1):
                ran, report = self.over(way, self.day, GIVES=1, TAKES=7, AT=reading, ERROR=error)
                if all(call.count >= 0 for call in report.calls):
                    break
                self.assertEqual(ran, failed, f"{way}, reading {reading}, {error}")
            self.assertEqual((ran, reading > len(DAY)), (sales, True), way)
        # All of a stream is read before a fault is told: also a reading that fails behind it.
        for day in (DAY[:3], DAY + DAY):
            self.gives(self.over(INPUT, self.file("faulty", day), GIVES=1, AT=len(day) + 1, ERROR=5)[0], 4, "", READING)

    def test_files_that_change(self):
        """A file grows, is replaced or shrinks before each of its readings in turn: the answer is that to what it had before or has
        then, or to whole messages from its start; or what was read ends within one."""
        example, sale = EXAMPLE.read_bytes(), trade(9)
        self.file("sale", sale)
        may_come = [self.of(it, "sales") for it in (EXAMPLE, self.file("longer", example, sale))]
        fronts = [self.of("-", "sales", input=it) for it in itertools.accumulate(frames_of(example), initial=b"")]
        for way, (gives, change, may_come) in itertools.product(WAYS, (
            (1_000, "truncate -s 466 changing", fronts), (1_000, "cp longer new; mv new changing", may_come[:1]),
            (1_000, "cat sale >>changing", may_come), (100_000, "cat sale >>changing", may_come))):
            for reading in itertools.count(1):
                changing = self.file("changing", example)
                ran, _ = self.over(way, changing, GIVES=gives, AT=reading, COMMAND=change)
                if changing.read_bytes() == example:
                    break
                is_cut = ran[:2] == (1, b"") and re.fullmatch(rb"fault: place \d+: message runs past the end\n", ran.errors)
                self.assertTrue(ran in may_come or may_come is fronts and is_cut, f"{way}, {change} {reading}: {ran}")
            self.assertGreater(reading, 2, way)

    # ---- outputs and pipes

    def test_closed_and_full_streams(self):
        """A file that is opened while a stream is closed has the stream's number, and isn't written to. A line that can't be written
        changes no status."""
        outputs = ((">&-", WRITING), ("<&- >&- 2>&-", ""), (">/dev/full", WRITING), (">/dev/full 2>/dev/full", ""))
        for words, status, out, errors in (
            ("precious sales <&-", 0, SALE, ""), ("precious sales --morsel 1 <&- 2>&-", 0, SALE, ""), ("- sales <&-", 4, "", READING),
            ("precious bars <&- 2>&-", 2, "", ""), ("day 2>/dev/full", 2, "", ""), ("cut_off sales 2>/dev/full", 1, "", ""),
            ("no_such_file sales <&- >&- 2>&-", 4, "", ""),
            *((f"{words} {closed}", 5, "", errors) for closed, errors in outputs
              for words in ("precious sales", "precious sales --morsel 1", "--help", "--version")),
        ):
            precious = self.file("precious", DAY)
            self.gives(self.shell(f'exec "$0" {words}'), status, out, errors)
            self.assertEqual(precious.read_bytes(), DAY, f"{words}: a file is written to")

    def test_pipes_and_full_files(self):
        """A pipe as the file, whose writer writes in pieces or leaves within a frame; one without a reader; and one whose reader
        leaves, where the answer is longer than any pipe holds."""
        self.gives(self.shell('(head -c 10 day; sleep 0.2; tail -c +11 day) | "$0" /dev/stdin sales'), 0, SALE)
        self.gives(self.of("/dev/stdin", "sales", input=DAY[:40]), 1, "", END)
        reader, writer = os.pipe()
        os.close(reader)
        self.addCleanup(os.close, writer)
        self.assertEqual(self.of("day", "sales", stdout=writer), Ran(5, None, WRITING.encode()))
        answer = self.of(self.file("trades", *[trade(9)] * 30_000), "sales").out
        for words in ("", " --morsel 1000000"):
            ran = self.shell(f'{{ "$0" trades sales{words}; echo "status $?" >&2; }} | head -c 100')
            self.assertEqual((ran.status, ran.out), (0, answer[:100]))
            self.assertRegex(ran.errors, rb"\Afault: writing failed after \d+ bytes\nstatus 5\n\Z")
            # A file that may have no more than three blocks takes the first bytes, and the line says their number.
            ran = self.shell(f'trap "" XFSZ; ulimit -f 3; exec "$0" trades sales{words} >part')
            self.gives(ran, 5, "", WRITING.replace("0", "3072"))
            self.assertEqual((self.folder / "part").read_bytes(), answer[:3072])
