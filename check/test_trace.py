"""Tests bin/trace_sales: its sales are the program's, over the example and days that are made here, faulty ones too; each byte that it
shows stands in the file where it says; what else it prints, and its faults; and that its memory doesn't grow with the file."""
import os, pty, re, sys

from itch import OPEN, SECOND, broken, cross, executed, executed_at, frame, message, named, named_alone, order, replaced, trade
from run import EXAMPLE, TOP, Case, program, run

TOOL = TOP / "bin/trace_sales"
WHOLE_DAY = "00:00:00", "24:00:00"


def after(seconds, nanoseconds=0):
    return OPEN + seconds * SECOND + nanoseconds


# One of each case that could go wrong. AB has two locates; 3 is renamed, and 9 twice; 4 has no R; 5 has bytes that no name may have,
# and is a test security; of 6 nothing says whether it is one.
EDGES = [
    frame(b""), message("S", 0, after(-1), "O"), named(1, "AB", 0), named(3, "OLD", 0),
    message("R", 5, 0, "A,B C", "Q", "N", 1, "N", "C", b"Z ", "T", "N", "N", "1", "N", 0, "N"), named_alone(6, "LONGNAME"),
    broken(113, 1, after(-1)), order(1, 1, after(-1), 1_000_000), order(3, 1, after(-1), 4_294_967_295, 100, "MSFT", "NSDQ"),
    order(7, 1, after(-1)), replaced(7, 8, 4_105_100, 1, after(-1)),
    executed(1, 100, 1, after(0, -1)), executed(1, 101, 1, after(0)), executed(1, 102, 2, after(0, 1)),
    replaced(1, 2, 1_000_100, 1, after(1)), executed(2, 103, 1, after(1)), executed(1, 104, 1, after(1)),
    message("X", 1, after(1), 2, 100), message("D", 1, after(1), 2),
    executed(2, 105, 1, after(2)), executed(3, 106, 1, after(2), 4_294_967_295), executed(2, 107, 1, after(2), 0),
    executed_at(1, 108, 999_900, 1, after(3)), executed_at(1, 109, 999_800, 1, after(3), printable="N"),
    executed_at(1, 110, 999_700, 1, after(3), printable="y"), executed_at(99, 111, 999_600, 2, after(3), printable=" "),
    trade(112, 1, after(4), 5), trade(113, 1, after(4), 0), trade(114, 1, after(4), 10_000, 0), cross(115, 1, after(5), 1_000_200, 2**33),
    cross(116, 1, after(5), 1_000_300, 0, sort="C"), cross(117, 2, after(5), 1_000_400, 7, sort="H"),
    broken(117, 0, after(6)), broken(109, 1, after(6)), broken(4_242, 1, after(6)),
    trade(118, 3, after(7)), trade(119, 4, after(7)), trade(120, 5, after(7)), trade(121, 6, after(7)),
    trade(122, 65_535, after(7)), trade(2**64 - 1, 0, after(7)),
    executed(2, 123, 1, after(29)), executed(2, 124, 1, after(30)), executed(2, 125, 1, after(30, 1)),
    executed(2, 126, 1, after(60, -1)), executed(2, 127, 1, after(60)),
    # two trades of one number, broken twice
    trade(128, 1, after(61), 30_000), trade(128, 3, after(61), 30_100), broken(128, 1, after(62)), broken(128, 1, after(90)),
    broken(101, 1, after(62)), executed_at(1, 129, 30_200, 1, after(50)), broken(129, 1, after(3_600)),
    named(2, "AB", after(31)), named(3, "NEW", after(31)), named(9, "BACK"), named(9, "GONE"), named(9, "BACK"),
    frame(b"Z" * 36), frame(b"Y"), trade(130, 1, 2**48 - 1, 30_300), message("S", 0, 2**48 - 1, "C"), frame(b"")]  # fmt: skip
SYMBOLS = "AB OLD NEW #2 A?B?C LONGNAME LONG ab #0 #1 #4 #04 #65535 #65536".split()
SPANS = [(f"09:{since}", f"09:{until}") for since, until in (("29:59", "30:00"), ("30:00", "30:01"), ("30:59", "31:01"))]
MOMENTS = "00:00:00 09:30:02 09:30:08 09:30:09 09:30:31 09:31:02 10:29:59 10:30:00 24:00:00".split()

# Days with a fault, each of which the trace of AB meets itself.
AB, GIVEN, SALE = named(1, "AB"), order(1), executed(1, 1)
FAULTY = {
    "cut in a body": [AB, GIVEN, SALE[:-1]], "cut in a length": [AB, GIVEN, b"\0"], "cut at its head": [b"\0\5A"],
    "wrong lengths": [AB, frame(b"E" * 30), frame(b"A" * 37)], "wrong and cut": [frame(b"B"), AB, b"\0\1"],
    "given twice": [AB, GIVEN, order(1, 2), SALE, order(1)], "given by its replacement": [AB, GIVEN, SALE, replaced(1, 1, 6)],
    "given before two": [AB, GIVEN, order(2), executed(2, 2), SALE, order(2), order(1)],
    "not given": [AB, GIVEN, SALE, executed(2, 2), executed(3, 3)], "given below": [AB, SALE, GIVEN],
    "replaced and not given": [AB, replaced(1, 2, 5), SALE], "unknown and twice": [AB, executed(2, 2), GIVEN, SALE, GIVEN],
    "unknown and broken": [AB, executed(2, 2), broken(2)], "unknown and of no shares": [AB, executed(2, 2, shares=0)],
    **{f"wrong length of {kind}": [AB, frame(kind.encode() * 12)] for kind in "AFECUPQBR"},
    # faulty as of an earlier moment only, and as of a later one only: times need not rise
    "late order": [order(1, time=after(9)), executed(1, 1, time=after(3)), AB],
    "late repeat": [AB, GIVEN, SALE, order(1, time=after(9))],
}  # fmt: skip
# Frames that lie across the end of what is read at once, and an empty one before a length that begins with the letter A.
FRAMES = {f"across {back}": [AB, *[frame(bytes(65_534))] * 15, frame(bytes(65_493 - back)), GIVEN, SALE] for back in range(4)}
FRAMES["empty before long"] = [AB, frame(b""), frame(b"Z" * (ord("A") << 8)), GIVEN, SALE]
TEXTS = """$ AB 09:30:03 09:30:04
no sale (not printable, broken): 09:30:03.000000000,AB,C,99.9800,100,109
$ #4 09:30:00 09:31:00
locate 4 has no directory message, so its name is #4
  P at place 1228, trade: locate 4, time 09:30:07.000000000, order_no 0, side B, shares 100, stock MSFT, price 410.5000, trade_no 119
$ OLD 09:30:00 09:31:00
no locate has the name OLD
locate 3 had it until place 1878
$ GONE 09:30:00 09:31:00
locate 9 had it until place 2001
$ --number 101 --as-of 09:30:30
09:30:00.000000000,AB,E,100.0000,100,101
  after the moment, broken by B at place 1757, broken trade: locate 1, time 09:31:02.000000000, trade_no 101
$ --number 114
no sale (zero shares): 09:30:04.000000000,AB,P,1.0000,0,114
$ --number 117
  Q at place 1077, cross trade: locate 2, time 09:30:05.000000000, shares 7, stock MSFT, price 100.0400, trade_no 117, cross_type H
$ --number 4242
no trade has the number 4242; breaks that name it: 1
$ --order 2 --as-of 09:30:01
  U at place 455, order replace: locate 1, time 09:30:01.000000000, old_no 1, new_no 2, shares 100, price 100.0100
09:30:01.000000000,AB,E,100.0100,100,103
$ --order 7
order 7 is replaced by order 8
$ --order 99
no message gives the order reference 99
no sale (not printable): 09:30:03.000000000,AB,C,99.9600,100,111
$ --names --as-of 09:30:30
3,OLD,57,1,100,no
5,A?B?C,98,1,1,yes
6,LONGNAME,139,1,,
$ --breaks
180,09:29:59.000000000,113,901,yes,09:30:04.000000000,AB,P,0.0000,100
1161,09:30:06.000000000,4242,,,,,,,
1736,09:31:30.000000000,128,1623,yes,09:31:01.000000000,AB,P,3.0000,100
1736,09:31:30.000000000,128,1669,yes,09:31:01.000000000,NEW,P,3.0100,100
$ --summary
empty: 2 (skipped)
type S: 2 (skipped, system event)
greatest time: 78:11:14.976710655 at place 2129"""


class Trace(Case):
    def traced(self, *words, status=0, errors="", **more):
        """What the tool prints: nothing, if its status isn't 0. The status and the errors are held against these."""
        ran = run(TOOL, *words, **more)
        self.gives(ran, status, b"" if status else ran.out, errors)
        return ran.out.decode()

    def compare(self, path, symbol, since=WHOLE_DAY[0], until=WHOLE_DAY[1], moment=None):
        """The lines of the sales, or the fault, are the program's, and what is shown of messages stands in the file: how many
        sales there are."""
        as_of, given = (f" as of {moment}", ["--as-of", moment]) if moment else ("", [])
        answer = run(program(), path, f"sales{as_of} where symbol in {symbol} and time from {since} until {until}")
        self.assertIn(answer.status, (0, 1))
        shown = self.traced(path, symbol, since, until, *given, status=answer.status, errors=answer.errors.decode())
        sales = re.findall(r"^\d.*\n", shown, re.M)
        self.assertEqual("".join(sales), "".join(answer.out.decode().splitlines(True)[1:]))
        self.holds_bytes(path, shown)
        return len(sales)

    def holds_bytes(self, path, shown):
        day = path.read_bytes()
        messages = re.findall(r"^  .*\b([A-Z]) at place (\d+), .*\n    (.*)$", shown, re.M)
        self.assertEqual(len(messages), len(re.findall("^    ", shown, re.M)), shown)
        for kind, place, held in messages:
            held, place = bytes.fromhex(held), int(place)
            self.assertEqual((held[2:3], len(held)), (kind.encode(), 2 + int.from_bytes(held[:2], "big")))
            self.assertEqual(held, day[place : place + len(held)])

    def test_sales_and_faults_are_those_of_the_program(self):
        edges = self.file("edges", *EDGES)
        asked = [(self.file(name, *frames), "AB") for name, frames in {**FAULTY, **FRAMES}.items()]
        asked += [(path, "AB", *WHOLE_DAY, moment) for path, _ in asked if path.name.startswith("late") for moment in MOMENTS]
        asked += [(edges, symbol) for symbol in SYMBOLS]
        asked += [(edges, symbol, *WHOLE_DAY, moment) for symbol in SYMBOLS[:4] for moment in MOMENTS]
        asked += [(edges, symbol, *span) for symbol in SYMBOLS[:4] for span in SPANS]
        spans, names = (WHOLE_DAY, ("09:30:13", "09:33:07"), ("09:41:33", "09:41:34")), ("MSFT", "AAPL", "ZVZZT", "NONE")
        asked += [(EXAMPLE, name, *span, moment) for name in names for span in spans for moment in (None, "09:31:05")]
        self.assertGreater(sum(self.compare(path, symbol, *more) for path, symbol, *more in asked), 300)

    def test_texts(self):
        """Commands over the day of edges, and lines that they print, in this order; documents show whole answers."""
        edges = self.file("edges", *EDGES)
        for part in f"\n{TEXTS}".split("\n$ ")[1:]:
            words, *wanted = part.rstrip("\n").split("\n")
            shown = self.traced(edges, *words.split())
            self.assertEqual([it for it in shown.splitlines() if it in wanted], wanted, shown)
            self.holds_bytes(edges, shown)
        for span, numbers in (("30.0 30.000000001", ["124"]), ("29.5 30.1", ["124", "125"])):
            shown = self.traced(edges, "AB", *(f"09:30:{it}" for it in span.split()))
            self.assertEqual(re.findall(r"^\d.*,(\d+)$", shown, re.M), numbers)

    def test_faults_elsewhere(self):
        """A fault of frames is reported whatever is asked for; one of references if a trade that is asked for needs them."""
        cut, wrong = (self.file(name, *FAULTY[name]) for name in ("cut in a body", "wrong lengths"))
        for words in (["NONE", *WHOLE_DAY], ["--number", 1], ["--order", 1], ["--names"], ["--breaks"], ["--summary"]):
            self.traced(cut, *words, status=1, errors="fault: place 79: message runs past the end\n")
            self.traced(wrong, *words, status=1, errors="fault: place 41: message E has length 30, not 31\n")
        unknown = self.file("unknown", *FAULTY["unknown and broken"])
        for words in (["--breaks"], ["--number", 2], ["--order", 2]):
            self.traced(unknown, *words, status=1, errors="fault: place 41: order reference 2 is not known\n")
        elsewhere = self.file("elsewhere", *FAULTY["given twice"], named(9, "XY"), trade(7, 9, price=5), executed(77, 1))
        self.assertEqual(run(program(), elsewhere, "sales").status, 1)
        for words in (["XY", *WHOLE_DAY], ["--number", 7]):
            self.assertIn("\n09:30:00.000000000,XY,P,0.0005,100,7\n", self.traced(elsewhere, *words))

    def test_streams(self):
        """A pipe is read if one reading is enough, and refused if it isn't; a file on standard input is read from where it was
        left; what can't be read or written is reported."""
        edges, behind, day = self.file("edges", *EDGES), self.file("behind", b"\0\0\7", *EDGES), b"".join(EDGES)
        for words in ("--names", "--names --as-of 09:30:30", "--summary"):
            # by a pipe that gives a few bytes at a time
            drips = run("sh", "-c", f"dd bs=7 status=none <{edges} | {TOOL} - {words}")
            self.gives(drips, 0, self.traced(edges, *words.split()))
        self.assertEqual(self.traced("-", "--summary"), "bytes: 0\nmessages: 0\nleast time: none\ngreatest time: none\nlast system event: none\n")
        for words in (["AB", *WHOLE_DAY], ["--number", "117"], ["--breaks"]):
            refused = run(TOOL, "-", *words, input=day)
            self.assertEqual((refused.status, refused.out, b"can't be a pipe" in refused.errors), (2, b"", True))
            left = run("sh", "-c", f'exec <{behind}; head -c 3 >{self.folder}/head; exec "$0" - "$@"', TOOL, *words)
            self.gives(left, 0, self.traced(edges, *words))
        for path, why in ((self.folder / "no\nfile", "No such file or directory"), (self.folder, "Is a directory")):
            path_said = str(path).replace("\n", "?")
            self.traced(path, "--names", status=4, errors=f"trace_sales: {path_said}: {why}\n")
        self.gives(run("sh", "-c", f"{TOOL} {edges} --names >/dev/full"), 5, "", "fault: writing failed\n")
        self.gives(run("sh", "-c", f"{TOOL} {edges} --summary | true"))

    def test_words(self):
        """Words that are wrong have status 2 and nothing on standard output; an option may stand anywhere."""
        edges, trace, moment = self.file("edges", *EDGES), ["AB", *WHOLE_DAY], ["--as-of", "09:31:00"]
        for words in """
            |AB|AB 09:30:00 09:31:00 x|AB 09:30:00 09:30:00|AB 9:30:00 09:31:00|AB 09:30 09:31:00|AB 09:30:00 24:00:01
            |AB 09:60:00 10:00:00|AB 09:30:00. 10:00:00|AB 09:30:00 10:00:00.0123456789|A,B 09:30:00 09:31:00
            |ABCDEFGHI 09:30:00 09:31:00|\u00c4 09:30:00 09:31:00|--names AB 09:30:00 09:31:00|--names --breaks|--number|--order x
            |--summary --as-of 09:30:00|--names --as-of 25:00:00|--name|--number 18446744073709551616|--order 1 AB""".split("|"):
            refused = run(TOOL, edges, *words.split())
            self.assertEqual((refused.status, refused.out, bool(refused.errors)), (2, b"", True), words)
        self.assertEqual([run(TOOL, edges, it, *WHOLE_DAY).status for it in ("", "A B", "AB 09:30:00")], [2, 2, 2])
        self.assertEqual(self.traced(*moment, edges, *trace), self.traced(edges, *trace, *moment))
        self.assertIn("Memory doesn't grow with the file", self.traced("--help"))

    def test_memory(self):
        """With 30 megabytes of what isn't asked for below it, a day is traced in the same memory."""
        few = [AB, GIVEN, SALE, broken(2), trade(2, price=5), named(2, "XY")]
        each = lambda it: (order(it, 1, price=7), order(2**60 + it, 2, OPEN, 7, 100, "MSFT", "NSDQ"), executed(it, it, 2), trade(it, 1, after(60)),
                           cross(it, 2), named(2, f"X{it}"), message("S", 0, OPEN, "S"))  # fmt: skip
        others = (frame for it in range(10, 120_000) for frame in each(it))
        days = self.file("small", *few), self.file("large", *few, *others)
        self.assertGreater(days[1].stat().st_size, 30_000_000)
        for words in (["AB", "09:30:00", "09:31:00"], ["--number", 1], ["--order", 1], ["--breaks"], ["--names"], ["--summary"]):
            counted = (self.counted(sys.executable, TOOL, it, *words, env={"PYTHONMALLOC": "malloc"}) for it in days)
            (small, of_small), (large, of_large) = counted
            self.assertLess(of_large.heap.most, of_small.heap.most + 8_000_000, words)
            self.assertTrue(small == large or large.status == 0 and words[0] in ("--names", "--summary"), large)
        self.assertEqual(self.compare(days[1], "AB", "09:30:00", "09:31:00"), 1)

    def test_progress(self):
        """A terminal shows after a second how much is read, in a line that is gone at the end; what is no terminal gets none."""
        slow = ["sh", "-c", f"{{ head -c 2 /dev/zero; sleep 2; head -c 2 /dev/zero; }} | {TOOL} - --names"]
        names = "locate,name,place,messages,round_lot,test\n"
        process, side = pty.fork()
        if process == 0:
            os.execvp(slow[0], slow)
        status, shown = os.waitpid(process, 0)[1], os.read(side, 4096).decode().replace("\r\n", "\n")
        self.assertRegex(f"{status} {shown}", rf"^0 (0 MB read, reading 1 of 1\x1b\[K\r)+\x1b\[K\r{names}$")
        self.gives(run(*slow), 0, names)
