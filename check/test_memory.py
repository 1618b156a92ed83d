"""Holds the memory and the system calls of the program below 1.3 times the figures at the end of this file, over days of the shapes
that cost most; sees that what was read is let go, and that time doesn't grow as the square of a day. No answer hangs on that, so
nothing else sees memory that is never given back, or is taken again for each partition or worker, or a search that begins anew at
each step. Counts are those of preload.c, whatever the machine's speed and load; bounds of processor time are six times what is
taken, or more. With one worker no figure moves by a hundredth. With several a task on which one works for long is given to another when
nothing else is left, so more may be read, asked for and held: theirs are at least the most of many runs on a busy machine.
"""
import os, resource

from itch import OPEN, breaks, broken, executed, named, names, order, orders, scattered, time_of, trade, trades
from run import TOP, Case, library, program, run

MIB = 1 << 20
BATCH = 32 * MIB  # of a stream; two are held, and of each the last morsel, and what is cut, are some MiB more


def executions_of_one(count):
    """One order, and its executions, each a bar of its own."""
    yield order(1, 0)
    for number in range(count):
        yield executed(1, number, number * 40_503 % 65_536, time_of(number, count))


def mixed(count, reference):
    """All locates under one name; orders; and then by turns an execution of each, a trade, and a break of another number, in no
    order. So each list that is sorted or searched is long, and where the references don't rise nothing lies in it as it comes."""
    for number in range(65_536):
        yield named(number, "MSFT")
    for number in range(count):
        yield order(reference(number), number % 65_536, time_of(number, 2 * count))
    for number in range(count):
        time = time_of(count + number, 2 * count)
        yield executed(reference(number * 7_919 % count), number, number * 40_503 % 65_536, time)
        yield trade(count + number, number * 30_011 % 65_536, time)
        yield broken(scattered(number), 0, time)


SHAPES = {
    "rising": ("bars 1 m", lambda: orders(150_000)),
    "scattered": ("bars 1 m", lambda: orders(150_000, scattered)),
    "one_order": ("bars 1 s", lambda: executions_of_one(120_000)),
    "trades": ("bars 1 s", lambda: trades(90_000)),
    "names": ("sales", lambda: names(100_000)),
    "breaks": ("sales", lambda: breaks(90_000)),
}


class OfMemory(Case):
    def took(self, file, query, workers, way="file", **more):
        """The KiB that a run holds at most and asks for, its allocations, readings and writes."""
        words = ["-" if way == "stream" else file, query, "--workers", workers]
        # The thread behind those of the second pipeline frees the rows while the text is made: late, so that each run holds as much.
        given, late = file if way == "stream" else b"", {"LATE": 2 * workers + 1}
        ran, report = self.counted(program(), *words, *more.pop("words", []), input=given, preload=late, **more)
        self.assertEqual((ran.status, ran.errors), (0, b""), words)
        heap = report.heap
        return heap.most >> 10, heap.bytes >> 10, heap.allocations, len(report.of("read", "pread")), len(report.of("write"))

    def test_figures(self):
        made, rows = None, [line.split() for line in FIGURES.strip().splitlines()]
        self.assertEqual({row[0] for row in rows}, {*SHAPES})
        for shape, way, workers, *figures in rows:
            query, frames = SHAPES[shape]
            if made != shape:
                made, day = shape, self.file("day", *frames())
            found = self.took(day, query, int(workers), way)
            with self.subTest(f"{shape:15}{way:9}{workers:2}" + "".join(f"{it:11}" for it in found)):
                self.assertTrue(all(it <= 1.3 * int(figure) for it, figure in zip(found, figures)), f"more than 1.3 of {figures}")

    def test_large_morsel(self):
        """A morsel takes as much room as there are bytes, however many it could have."""
        took = self.took(self.file("day", *trades(90_000)), "sales where kind in Q", 1, "stream", words=["--morsel", 1 << 30])
        self.assertLess(took[1], 64 << 10)

    def test_batches(self):
        """Of a stream's bytes no more than two batches are held, however long it is, in vectors that have room for a morsel and a
        piece, and the pages of morsels that are let go are used again for the next ones: so no more are touched for the first time
        than four batches have."""
        day = self.file("day")
        os.truncate(day, 6 * BATCH)
        library()  # (whose making touches pages, too)
        for workers in (1, 4):
            faults = resource.getrusage(resource.RUSAGE_CHILDREN).ru_minflt
            held = self.took(day, "sales", workers, "stream")[0] << 10
            faults = resource.getrusage(resource.RUSAGE_CHILDREN).ru_minflt - faults
            self.assertTrue(BATCH <= held <= 2 * BATCH * 17 // 16 + 6 * MIB, f"{held} bytes are held, workers {workers}")
            self.assertLess(faults * resource.getpagesize(), 4 * BATCH, f"workers {workers}")

    def test_time_of_cuts(self):
        """A morsel of 192 MiB of empty messages is cut, which is read in 3,000 pieces."""
        os.truncate(self.file("day"), 192 * MIB)
        self.quickly(6, "-", "sales", "--morsel", 1 << 30, input=self.folder / "day")

    def test_time_of_lists(self):
        """Of a day each of whose lists is long, in one partition and in many, and with all locates asked for by their name, the
        sales are listed where nothing lies as it comes, and the bars made where references rise, also of 20,000 morsels; no sale
        of it is of the kind that is asked for."""
        for reference, query in ((scattered, "sales where symbol in MSFT"), (int, "bars 1 s where symbol in MSFT")):
            day = self.file("day", *mixed(200_000, reference))
            for partitions in (1, 61):
                self.quickly(2, day, query, "--partitions", partitions)
        for words in (["bars 1 s", "--morsel", 1_000], ["sales where kind in Q"]):
            self.quickly(2, day, *words, "--partitions", 1)

    def test_time_of_symbols(self):
        """21,000 symbols are looked for among the names of all locates."""
        symbols = ",".join(f"{number}" for number in range(75_000, 96_000))
        self.quickly(1, self.file("day", *names(70_000)), f"sales where symbol in {symbols}")

    def quickly(self, seconds, *words, **more):
        """One worker answers within the seconds of a processor, where each step that begins anew takes far more."""
        ran = run(program(), *words, "--workers", 1, seconds=seconds, **more)
        self.assertEqual((ran.status, ran.errors), (0, b""), words)


FIGURES = """
rising         file    1       4892      22044       3960         53         11
rising         file   64       6159      25886       7993        105         59
rising         stream  1       8880      31941       4559         86         11
scattered      file    1       6018      27557       4403         53         11
scattered      stream  1      10223      37583       5080         86         11
one_order      file    1       9538      40718       1270         37         31
trades         file    1       6466      30784       2861         39         23
trades         file    4       8500      39700       4760         77         25
trades         stream  1       8197      38915       3446         65         23
names          file    1       7294      17779       1530         39          2
names          stream  1       7283      27205       1807         65          2
breaks         file    1       5083      24438       3617         57          2
breaks         stream  1      10834      35918       3896         93          2
breaks         stream  4      13953      41621       5114        116          5
"""
