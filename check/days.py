"""Makes the two days of data/, which are made up, and writes them: `python3 check/days.py`. data/example.itch has twelve minutes of
a morning: three securities, and messages of each type that the program reads. data/whole_day.itch has what a real day has from
its first message to its last: the six system events, the stock directory, orders, executions, hidden trades, odd lots, crosses of
each sort and one without shares, broken trades, and messages that are skipped."""
import collections, pathlib

from itch import OPEN, SECOND, message, named_alone

DATA = pathlib.Path(__file__).resolve().parent.parent / "data"
CENT = 100

# The market is that of the listing: Q is Nasdaq's Global Select Market, N the New York Stock Exchange.
Security = collections.namedtuple("Security", "locate name market lot sort test first", defaults=("Q", 100, "C", "P", "N"))
MSFT, AAPL, NEWCO = Security(7, "MSFT", lot=40), Security(13, "AAPL"), Security(21, "NEWCO", first="Y")
CLASS_B, PREFERRED = Security(34, "BRK.B", "N", 40), Security(35, "BAC-L", "N", 10, "F")
NOBODY, IDLE, TEST = Security(0, ""), Security(40, "IDLE"), Security(51, "ZVZZT", test="T")


def at(clock):
    """Nanoseconds since midnight of a time as `09:30:00` or `09:30:00.25`."""
    whole, _, part = clock.partition(".")
    hours, minutes, seconds = map(int, whole.split(":"))
    return ((hours * 60 + minutes) * 60 + seconds) * SECOND + int(part.ljust(9, "0"))


class Day:
    """The messages of a day with their times; those of one time keep the order in which they came."""

    def __init__(self):
        self.messages, self.order_no, self.trade_no = [], 1000, 50000

    def bytes(self):
        return b"".join(frame for _, frame in sorted(self.messages, key=lambda it: it[0]))

    def add(self, kind, security, time, *fields):
        time = at(time) if isinstance(time, str) else time
        self.messages.append((time, message(kind, security.locate, time, *fields)))

    def order(self, security, time, side, shares, price, *attribution):
        """A new order; the answer is its reference."""
        self.order_no += 1
        self.add("F" if attribution else "A", security, time, self.order_no, side, shares, security.name, price, *attribution)
        return self.order_no

    def replaced(self, security, time, old_no, shares, price):
        self.order_no += 1
        self.add("U", security, time, old_no, self.order_no, shares, price)
        return self.order_no

    def traded(self, kind, security, time, *fields, behind=""):
        """A message with a new match number, which is the answer, and what stands behind that number."""
        self.trade_no += 1
        self.add(kind, security, time, *fields, self.trade_no, *behind)
        return self.trade_no

    def hidden(self, security, time, shares, price):
        """A trade against an order that isn't displayed: its order reference is always 0 and its side always B."""
        return self.traded("P", security, time, 0, "B", shares, security.name, price)

    def cross(self, security, time, shares, price, sort):
        """Sort O is the opening cross, C the closing cross, H that of a first listing or after a halt."""
        self.traded("Q", security, time, shares, security.name, price, behind=sort)

    def session(self, security, since, until, minutes, prices):
        """At each step of minutes an order, which is executed, replaced at another price and executed again; of every second one
        a hidden trade follows, and every third one is cancelled in part or deleted."""
        for turn, time in enumerate(range(at(since), at(until), minutes * 60 * SECOND)):
            order = self.order(security, time, "BS"[turn % 2], 300, next(prices), *([b"NSDQ"] if turn % 13 == 5 else []))
            self.traded("E", security, time + 7 * SECOND + 104, order, 100)
            order = self.replaced(security, time + 60 * SECOND, order, 200, next(prices))
            self.traded("E", security, time + 95 * SECOND + 12500, order, 100 if turn % 5 else 60)
            if turn % 2:
                self.hidden(security, time + 130 * SECOND + 77, 40 + turn, next(prices) + 50)
            if turn % 6 == 2:
                self.add("X", security, time + 150 * SECOND, order, 50)
            if turn % 6 == 5:
                self.add("D", security, time + 170 * SECOND, order)


def walk(seed, price, step):
    """Prices that go up and down by some cents, always the same ones."""
    while True:
        yield price
        seed = (seed * 1103515245 + 12345) % 2**31
        price += (seed // 65536 % (2 * step + 1) - step) * CENT


def whole_day():
    day = Day()
    # Before trading. The state H is halted, P paused, Q quotation only, T trading.
    for time in ("03:02:00 O", "04:00:00 S", "09:30:00 Q", "16:00:00 M", "20:00:00 E", "20:05:00 C"):
        day.add("S", NOBODY, *time.split())
    for it in (MSFT, AAPL, NEWCO, CLASS_B, PREFERRED, IDLE, TEST):
        fields = it.name, it.market, "N", it.lot, "N", it.sort, b"Z ", it.test, "N", it.first, "1", "N", 0, "N"
        day.add("R", it, "03:05:00", *fields)
        day.add("H", it, "03:05:00", it.name, "H" if it is NEWCO else "T", " ", "IPO1" if it is NEWCO else "")
    early = day.order(MSFT, "04:15:00", "S", 100, 4091500)
    day.traded("E", MSFT, "04:15:02.5", early, 25)
    day.add("X", MSFT, "07:00:00", early, 50)
    # The opening. What a cross takes from the book comes again as executions that aren't printable.
    waiting = day.order(MSFT, "09:28:30", "B", 500, 4100000)
    day.cross(MSFT, "09:30:00.113", 30000, 4099000, "O")
    day.traded("C", MSFT, "09:30:00.113", waiting, 400, behind=("N", 4099000))
    day.traded("C", MSFT, "09:30:01", waiting, 100, behind=("Y", 4099500))
    day.cross(AAPL, "09:30:00.25", 21000, 1893000, "O")
    day.cross(IDLE, "09:30:00.4", 0, 0, "O")
    # The session.
    day.session(MSFT, "09:30:05", "15:59:00", 5, walk(1, 4100000, 35))
    day.session(AAPL, "09:31:00", "13:19:00", 15, walk(2, 1893000, 20))
    day.session(AAPL, "13:26:00", "15:59:00", 15, walk(3, 1899000, 20))
    day.session(NEWCO, "11:15:00", "15:59:00", 20, walk(4, 315000, 25))
    day.session(CLASS_B, "10:02:00", "15:59:00", 60, walk(5, 4620000, 40))
    day.hidden(PREFERRED, "12:34:56.789", 10, 11850000)
    day.session(TEST, "10:00:00", "10:30:00", 10, walk(6, 100000, 5))
    # An odd lot, which is the highest price of MSFT's day.
    odd = day.order(MSFT, "11:03:20", "S", 3, 4113700)
    day.traded("E", MSFT, "11:03:21.000000001", odd, 3)
    # A first listing: quotations until the release, the release, the cross.
    day.add("H", NEWCO, "10:45:00", NEWCO.name, "Q", " ", "IPOQ")
    day.add("K", NEWCO, "10:45:00", NEWCO.name, at("11:14:00") // SECOND, "A", 280000)
    day.add("H", NEWCO, "11:14:05", NEWCO.name, "T", " ", "")
    day.cross(NEWCO, "11:14:05.9", 12500, 315000, "H")
    # A pause of AAPL, which ends with a cross.
    day.add("H", AAPL, "13:20:00", AAPL.name, "P", " ", "LUDP")
    day.add("H", AAPL, "13:25:00", AAPL.name, "T", " ", "")
    day.cross(AAPL, "13:25:00.4", 1200, 1899000, "H")
    # An execution far off the market, broken half an hour later, and one that is broken only after the close.
    wrong = day.order(MSFT, "14:20:00", "B", 100, 3500000)
    day.add("B", MSFT, "14:52:00", day.traded("E", MSFT, "14:20:01", wrong, 100))
    day.add("B", AAPL, "20:01:00", day.hidden(AAPL, "15:58:30", 500, 1812500))
    # The closing, the late session, the end.
    for it, part, shares, price in ((MSFT, 3, 45000, 4078000), (AAPL, 5, 38000, 1897000), (NEWCO, 6, 9000, 318000), (IDLE, 7, 0, 0)):
        day.cross(it, f"16:00:00.{part}", shares, price, "C")
    day.hidden(MSFT, "17:30:00", 20, 4081000)
    return day.bytes()


def example():
    day, prices = Day(), {MSFT: 4_105_000, AAPL: 1_893_300, Security(4021, "ZVZZT"): 100_000}
    for it, price in prices.items():
        day.messages.append((0, named_alone(it.locate, it.name)))  # (the last cross finds no shares)
        day.add("Q", it, OPEN, 0 if it.locate == 4021 else 25_000, it.name, price, 900 + it.locate, "O")
    for step in range(96):
        it, price = list(prices.items())[step % 3]
        time, order, number, price = OPEN + step * 7_300_000_000, 1000 + step, 20000 + 10 * step, price + step * 37 % 50 * CENT
        given = order, "B", 500, it.name, price
        for is_there, kind, *fields in (
            (True, *(("F", *given, b"NSDQ") if step % 2 else ("A", *given))),
            (True, "E", order, 10 + step % 7 * 10, number),
            (step % 5 == 0, "C", order, 20, number + 1, "Y", price - CENT),
            (step % 7 == 0, "C", order, 20, number + 2, "N", price - 2 * CENT),
            (step % 6 == 0, "U", order, order + 1000, 300, price + CENT),
            (step % 6 == 0, "E", order + 1000, 30, number + 3),
            (step % 8 == 0, "P", 0, "B", 75, it.name, price + 50, number + 4),
            # the break of an execution comes nine steps after it, a minute later
            (step % 12 == 9, "B", number - 90),
        ):
            if is_there:
                day.add(kind, it, time, *fields)
    return day.bytes()


DAYS = {"example.itch": example, "whole_day.itch": whole_day}

if __name__ == "__main__":
    for name, day in DAYS.items():
        (DATA / name).write_bytes(day())
