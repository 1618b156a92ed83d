"""Sees how many threads the program starts, what each reads, and that they work at once, for each way to read a day and several
crews. No answer hangs on that, so no clause and no test of an answer sees an option that is lost on its way to the threads.

Nothing is timed. That several work at once, and that the caller of a stream reads the next batch meanwhile, is seen by holding each
in its first reading, or in its first large allocation, until all of them are there: a thread that has no task never comes, and
after 20 seconds the others go on and are reported. A block may be given to a second worker while the first still reads it, so what
several read has a bound alone."""
import functools, itertools, os

from itch import OPEN, message, order, trades
from run import Case, program

MIB = 1 << 20
BUFFER, SEEN = 126_976, 4_096  # is read at once of a block; for a guess of where a frame begins, or behind a block's end
PIECE, BATCH = 65_536, 32 * MIB  # is read of a stream at once; how long its batches are
SALES = 150_000  # How many a day of these tests has, if nothing else is said.
LIMIT = 64 << 30  # No file of a run here is longer: only the byte at the limit is asked for there.


class Threads:
    """The numbers of the threads of each kind, in the order of their starts. `first` has those of the workers of the first
    pipeline, of each batch of a stream; a file is one."""

    def __init__(self, workers, gatherers, query="sales", sales=SALES, batches=1):
        self.count, self.first = 0, []
        for batch in range(batches):
            # (of each batch but the last, one that waits for the others while the caller reads on)
            self.first.append(self.behind(gatherers - 1 + (batch < batches - 1), workers))
        self.second = self.behind(gatherers - 1, workers)
        self.before_text = self.count
        # One frees the rows, while others make the text, each a share of its parts: there are sixteen for each worker, 256 at
        # most, or as many as there are parts.
        parts = max(sales // 8_192, workers) if query == "sales" else workers * (sales // workers // 4_096 + 1)
        self.text = self.behind(1, -(-parts // max(parts // min(16 * workers, 256), 1)))

    def behind(self, others, count):
        """The numbers of this many threads behind others."""
        first = self.count + others + 1
        self.count += others + count
        return range(first, first + count)


def meeting(kind, groups):
    return "".join(f"{kind}{group[0]}-{group[-1]}" for group in groups)


@functools.lru_cache(maxsize=1)
def day():
    """A day of some 7 MB."""
    return b"".join(trades(150_000))


class OfThreads(Case):
    def looked_at(self, words, threads, preload, **more):
        """Runs the words on these threads, and returns what was done."""
        ran, report = self.counted(program(), *words, preload=preload, **more)
        self.assertEqual((ran.status, ran.errors), (0, b""), words)
        self.assertEqual((report.started, report.alone), (threads.count, []), words)
        return report

    def blocks(self, file, workers, gatherers=1, query="sales", again=0, sales=SALES):
        """A named file is read in blocks, by all workers at once. The caller asks for the byte at the limit, first, and reads
        nothing else, but where guesses are wrong so many bytes `again`."""
        length, threads = file.stat().st_size, Threads(workers, gatherers, query, sales)
        words = [file, query, "--workers", workers, "--gatherers", gatherers]
        meet = meeting("p", threads.first) + (meeting("a", [threads.second, threads.text[:workers]]) if sales else "")
        report = self.looked_at(words, threads, {"MEET": meet})
        self.assertFalse(report.of("read"), words)
        own = [call for call in report.of("pread") if call.thread == 0]
        others = [call for call in report.of("pread") if call.thread]
        self.assertEqual((own[0].place, own[0].asked, own[0]), (LIMIT, 1, report.of("pread")[0]), words)
        self.assertLessEqual(sum(call.count for call in own), again, words)
        self.assertEqual(len(own) == 1, not again, words)
        # Eight blocks for each worker, 256 in all, if they have a MiB then, and eight at most. Each but the first begins with a guess.
        block = min(max(MIB, length // min(8 * workers, 256)), 8 * MIB)
        blocks = length // block
        self.assertEqual({call.thread for call in others}, set(threads.first[0]), words)
        guesses = {call.place for call in others if call.asked == SEEN and call.place and call.place % block == 0}
        self.assertEqual(guesses, {block * number for number in range(1, blocks)}, words)
        # No byte is read twice beside that, by one worker.
        givings = 1 if workers == 1 else 2
        count = sum(call.count for call in others)
        self.assertTrue(length <= count + again and count <= givings * (length + 2 * SEEN * blocks), f"{words}: {count}")
        self.assertLessEqual(len(others), givings * blocks * (block // (BUFFER - SEEN) + 4), words)

    def stream(self, file, by_name, workers, gatherers, query="sales", sales=SALES):
        """Standard input, and a file whose morsels have a size, are read in order by the caller, while all workers scan the batch
        before: in a day of two batches the caller waits, before its last reading of a whole piece, until each of them does."""
        length = file.stat().st_size
        words = [file, query, "--morsel", 500_000] if by_name else ["-", query]
        words += ["--workers", workers, "--gatherers", gatherers]
        threads = Threads(workers, gatherers, query, sales, length // BATCH + 1)
        groups = [*threads.first, threads.second, threads.text[:workers]]
        meet = {"MEET": meeting("a", groups), **({"JOINS": length // PIECE} if threads.first[1:] else {})}
        report = self.looked_at(words, threads, meet, input=b"" if by_name else file)
        self.assertEqual({(call.kind, call.thread) for call in report.of("read", "pread")}, {("read", 0)}, words)
        self.assertEqual(sum(call.count for call in report.of("read")), length, words)
        self.assertLessEqual(len(report.of("read")), length // PIECE + 2, words)

    def test_each_way(self):
        file = self.file("day", day())
        for query, crew in itertools.product(("sales", "bars 1 m"), ((1, 1), (3, 1), (5, 3))):
            self.blocks(file, *crew, query)
            self.stream(file, False, *crew, query)
            self.stream(file, True, *crew, query)

    def test_two_batches(self):
        file = self.file("day", b"".join(order(number + 1) for number in range(900_000)), day()[:1_000_000 // 46 * 46])
        for by_name, crew in itertools.product((False, True), ((1, 1), (3, 1), (4, 3))):
            self.stream(file, by_name, *crew, sales=1_000_000 // 46)

    def test_each_is_waited_for(self):
        """Those of the pipelines before anything is written, whichever begins late, and all others before the program ends."""
        file, threads = self.file("day", day()[: 46 * 60_000]), Threads(2, 2, sales=60_000)
        for morsel, number in itertools.product(([], ["--morsel", 500_000]), range(1, threads.count + 1)):
            words = [program(), file, "sales", "--workers", 2, "--gatherers", 2, *morsel]
            report = self.counted(*words, preload={"LATE": number})[1]
            self.assertEqual((report.started, report.begun[1]), (threads.count, threads.count), words)
            self.assertIn(report.begun[0], (threads.before_text, threads.before_text + 1), f"{number} is late: {words}")

    def test_messages_of_all_lengths(self):
        """A guess knows the longest message and the shortest, which stand beside trades at the opening."""
        between = [message("S", 0, OPEN, "Q"), message("I", 1, OPEN, 100, 100, "O", "MSFT", 1, 1, 1, "C", "L")]
        self.assertEqual([len(it) - 2 for it in between], [12, 50])
        file = self.file("day", *(it for few in zip(*[trades(150_000)] * 12) for it in (*few, *between)))
        for workers in (1, 4):
            self.blocks(file, workers)

    def test_wrong_guess_and_long_file(self):
        """Where long frames lie over a block's beginning, the caller reads that block again and no other."""
        long, file = (60_000).to_bytes(2, "big") + b"Z" + bytes(59_999), day()
        at = MIB // 46 * 46 - 2 * len(long) // 46 * 46
        for workers in (1, 4):
            self.blocks(self.file("day", file[:at], long * 4, file[at:]), workers, again=MIB + 2 * SEEN)
        # However long a file is, its blocks aren't, and the caller looks at none.
        os.truncate(self.file("long"), 80 * MIB)
        self.blocks(self.folder / "long", 1, sales=0)

    def test_short_days(self):
        """A day of less than two MiB is answered by the caller alone, however it is read, and one of two MiB by threads."""
        for length, is_short in ((2 * MIB - 2, True), (2 * MIB, False)):
            file = self.file("day", bytes(length))
            for name, given, morsel in ((file, b"", []), ("-", file, []), (file, b"", ["--morsel", MIB])):
                started = self.counted(program(), name, "bars 1 m", "--workers", 4, *morsel, input=given)[1].started
                self.assertEqual(started == 0, is_short, f"{length} bytes of {name}, {started} threads")
        # What is read when the fault of a stream is found isn't scanned: for a day of one batch no thread is started.
        ran, report = self.counted(program(), "-", "sales", "--workers", 3, input=day()[:-1])
        self.assertEqual((ran.status, report.started), (1, 0))

    def test_waiting(self):
        """A caller that waits takes no processor: here its one worker waits for a thread that is never started."""
        words = [program(), self.file("day", day()), "sales", "--workers", 1]
        ran, report = self.counted(*words, preload={"MEET": "p1-2"}, seconds=1)
        self.assertEqual((ran.status, report.alone), (0, [1]))

    def test_partitions(self):
        """Each partition is a task, which costs two to ten allocations, though no row is there, wherever one begins; and their
        number is the greatest prime up to the one that is given."""
        # (so long that room is taken for 16 rows or more of each partition)
        empty = self.file("empty", bytes(262_144))
        for words, given in (([empty], b""), ([empty, "--morsel", 262_144], b""), (["-"], empty)):
            words = [program(), *words, "sales", "--workers", 1, "--partitions"]
            few, some, same, more = (self.counted(*words, count, input=given)[1].heap.allocations for count in (2, 67, 70, 131))
            self.assertTrue(2 * 65 <= some - few < 10 * 65 and 2 * 64 <= more - same < 10 * 64, f"{words}: {few} {some} {more}")
            self.assertEqual(some, same, f"{words}: 70 isn't taken as 67, a prime")
