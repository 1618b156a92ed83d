//! The work of itch_bars in plain Rust: no proof, no query language, and no faults. An input that itch_bars refuses makes
//! it panic, or isn't noticed.
//!
//!     plain FILE sales|bars|read SECONDS THREADS
//!
//! It writes what itch_bars writes, to the byte. The threads read the file by blocks, and keep the rows of their frames in
//! partitions. Then they take partitions: they price the executions of each by a hash map of its orders, leave out broken
//! trades, and put the sales into ranges of the answer. Last they take ranges: they sort the sales of each and make its
//! lines. `read` reads the blocks and does nothing with them, which shows how much of the time is reading.
use std::collections::{HashMap, HashSet};
use std::fs::File;
use std::hash::{BuildHasherDefault, Hasher};
use std::io::{self, Write};
use std::os::unix::fs::FileExt;
use std::sync::atomic::{AtomicUsize, Ordering};
use std::sync::{Condvar, Mutex};
use std::{iter, thread};

/// How many partitions there are, and at most how many ranges.
const PARTS: usize = 64;
const BLOCK: usize = 1 << 20;
const LONGEST_FRAME: usize = 2 + u16::MAX as usize;
const SECOND: u64 = 1_000_000_000;

/// Hashes a number by one multiplication, which is faster than std's own hasher.
#[derive(Default)]
struct Multiply(u64);

impl Hasher for Multiply {
    fn finish(&self) -> u64 {
        self.0
    }

    fn write(&mut self, _bytes: &[u8]) {
        unreachable!("only numbers are hashed");
    }

    fn write_u64(&mut self, number: u64) {
        let product = u128::from(number ^ 0x243f_6a88_85a3_08d3) * 0x9e37_79b9_7f4a_7c15;
        self.0 = product as u64 ^ (product >> 64) as u64;
    }
}

type Hash = BuildHasherDefault<Multiply>;
type Parts<T> = [Vec<T>; PARTS];

#[derive(Clone, Copy)]
struct Sale {
    /// What sales are sorted by, before their places: of a listing the place, of bars the locate and the interval.
    key: u64,
    place: u64,
    time: u64,
    shares: u64,
    trade: u64,
    price: u32,
    locate: u16,
    kind: u8,
}

struct Order {
    reference: u64,
    place: u64,
    price: u32,
}

/// What a thread keeps of its blocks: orders and executions in partitions of their order references.
struct Rows {
    orders: Parts<Order>,
    /// Each with the reference of its order, and without a price.
    executions: Parts<(u64, Sale)>,
    other_sales: Vec<Sale>,
    broken: Vec<u64>,
    names: Vec<(u64, u16, [u8; 8])>,
}

fn parts<T>() -> Parts<T> {
    [const { Vec::new() }; PARTS]
}

/// The number in N bytes of a body, the highest first.
fn number<const N: usize>(body: &[u8], at: usize) -> u64 {
    let mut whole = [0; 8];
    whole[8 - N..].copy_from_slice(&body[at..at + N]);
    u64::from_be_bytes(whole)
}

impl Rows {
    fn new() -> Rows {
        let (orders, executions) = (parts(), parts());
        Rows { orders, executions, other_sales: Vec::new(), broken: Vec::new(), names: Vec::new() }
    }

    /// Takes a message, for bars of so many seconds, or for a listing if they are 0.
    fn take(&mut self, place: u64, body: &[u8], seconds: u64) {
        let Some(&kind) = body.first() else { return };
        let sale = |price, shares, trade| {
            let (locate, time) = (number::<2>(body, 1), number::<6>(body, 5));
            let key = if seconds == 0 { place } else { locate << 32 | time / (seconds * SECOND) };
            Sale { key, place, time, shares, trade, price: price as u32, locate: locate as u16, kind }
        };
        match kind {
            b'A' | b'F' => self.order(place, number::<8>(body, 11), number::<4>(body, 32)),
            b'U' => self.order(place, number::<8>(body, 19), number::<4>(body, 31)),
            b'E' => {
                let (reference, sale) = (number::<8>(body, 11), sale(0, number::<4>(body, 19), number::<8>(body, 23)));
                self.executions[reference as usize % PARTS].push((reference, sale));
            }
            b'C' if body[31] == b'Y' => {
                self.other_sales.push(sale(number::<4>(body, 32), number::<4>(body, 19), number::<8>(body, 23)));
            }
            b'P' => self.other_sales.push(sale(number::<4>(body, 32), number::<4>(body, 20), number::<8>(body, 36))),
            b'Q' => self.other_sales.push(sale(number::<4>(body, 27), number::<8>(body, 11), number::<8>(body, 31))),
            b'B' => self.broken.push(number::<8>(body, 11)),
            b'R' => self.names.push((place, number::<2>(body, 1) as u16, body[11..19].try_into().unwrap())),
            _ => {}
        }
    }

    fn order(&mut self, place: u64, reference: u64, price: u64) {
        self.orders[reference as usize % PARTS].push(Order { reference, place, price: price as u32 });
    }
}

/// A file that threads read by blocks. A frame belongs to the block that it begins in.
struct Blocks {
    file: File,
    length: usize,
    /// The first block whose frames aren't found yet, and the place of its first frame.
    next: Mutex<(usize, usize)>,
    found: Condvar,
}

impl Blocks {
    fn of(path: &str) -> Blocks {
        let file = File::open(path).unwrap();
        let length = file.metadata().unwrap().len() as usize;
        Blocks { file, length, next: Mutex::new((0, 0)), found: Condvar::new() }
    }

    /// Reads a block, and enough of the next one for its last frame.
    fn read(&self, block: usize, bytes: &mut [u8]) {
        let begin = block * BLOCK;
        let count = bytes.len().min(self.length - begin);
        self.file.read_exact_at(&mut bytes[..count], begin as u64).unwrap();
    }

    /// Takes the messages of a block. Where its first frame begins is known once the frames before it have been found.
    fn take(&self, block: usize, bytes: &mut [u8], rows: &mut Rows, seconds: u64) {
        self.read(block, bytes);
        let (begin, end) = (block * BLOCK, self.length.min((block + 1) * BLOCK));
        let after = |place: usize| place + 2 + number::<2>(bytes, place - begin) as usize;
        let mut next = self.found.wait_while(self.next.lock().unwrap(), |next| next.0 != block).unwrap();
        let mut place = next.1;
        while next.1 < end {
            next.1 = after(next.1);
        }
        assert!(next.1 <= self.length);
        next.0 += 1;
        drop(next);
        self.found.notify_all();
        while place < end {
            rows.take(place as u64, &bytes[place + 2 - begin..after(place) - begin], seconds);
            place = after(place);
        }
    }
}

/// What each thread makes of its tasks: it takes one after another, until none is left.
fn on_threads<T: Send>(
    threads: usize,
    tasks: usize,
    begin: impl Fn() -> T + Sync,
    run: impl Fn(&mut T, usize) + Sync,
) -> Vec<T> {
    let next = AtomicUsize::new(0);
    let work = || {
        let mut made = begin();
        let mine = iter::repeat_with(|| next.fetch_add(1, Ordering::Relaxed)).take_while(|task| *task < tasks);
        mine.for_each(|task| run(&mut made, task));
        made
    };
    thread::scope(|scope| {
        let others: Vec<_> = (1..threads).map(|_| scope.spawn(work)).collect();
        let mine = work();
        others.into_iter().map(|other| other.join().unwrap()).chain([mine]).collect()
    })
}

/// Hands out the executions of one partition with their prices.
fn price(rows: &[Rows], part: usize, mut hand: impl FnMut(Sale)) {
    let mut prices = HashMap::<u64, (u64, u32), Hash>::default();
    prices.reserve(rows.iter().map(|rows| rows.orders[part].len()).sum());
    for order in rows.iter().flat_map(|rows| &rows.orders[part]) {
        assert!(prices.insert(order.reference, (order.place, order.price)).is_none());
    }
    for (reference, sale) in rows.iter().flat_map(|rows| &rows.executions[part]) {
        let (place, price) = prices[reference];
        assert!(place < sale.place);
        hand(Sale { price, ..*sale });
    }
}

/// The least key of each range after the first. They come from a sample of the sales, so the ranges are about equal.
fn bounds(rows: &[Rows]) -> Vec<u64> {
    let executed = rows.iter().flat_map(|rows| &rows.executions).flatten().map(|(_, sale)| sale);
    let sales = executed.chain(rows.iter().flat_map(|rows| &rows.other_sales));
    let mut keys: Vec<u64> = sales.step_by(101).map(|sale| sale.key).collect();
    keys.sort_unstable();
    (1..PARTS).filter_map(|range| keys.get(range * keys.len() / PARTS).copied()).collect()
}

/// The name of each locate, by the last message that gives one.
fn names(rows: &[Rows]) -> Vec<Option<&[u8]>> {
    let mut given: Vec<_> = rows.iter().flat_map(|rows| &rows.names).collect();
    given.sort_unstable();
    let mut names = vec![None; 1 << 16];
    given.iter().for_each(|(_, locate, name)| names[usize::from(*locate)] = Some(name.trim_ascii_end()));
    names
}

/// Lines that are being made. What a call adds ends in the byte that it is given.
#[derive(Default)]
struct Text(Vec<u8>);

impl Text {
    fn bytes(&mut self, bytes: &[u8], end: u8) -> &mut Text {
        self.0.extend_from_slice(bytes);
        self.0.push(end);
        self
    }

    /// A number, with zeros before it if its digits are fewer than asked.
    fn number(&mut self, mut number: u64, digits: usize, end: u8) -> &mut Text {
        let (mut shown, mut at) = ([0; 20], 20);
        while number > 0 || at > 20 - digits {
            at -= 1;
            shown[at] = b'0' + (number % 10) as u8;
            number /= 10;
        }
        self.bytes(&shown[at..], end)
    }

    fn sum(&mut self, sum: u128, end: u8) -> &mut Text {
        match u64::try_from(sum) {
            Ok(sum) => self.number(sum, 1, end),
            Err(_) => self.bytes(sum.to_string().as_bytes(), end),
        }
    }

    fn dollars(&mut self, price: u64, end: u8) -> &mut Text {
        self.number(price / 10_000, 1, b'.').number(price % 10_000, 4, end)
    }

    fn clock(&mut self, seconds: u64, end: u8) -> &mut Text {
        self.number(seconds / 3_600, 2, b':').number(seconds / 60 % 60, 2, b':').number(seconds % 60, 2, end)
    }

    fn sale(&mut self, sale: &Sale, name: &[u8]) {
        self.clock(sale.time / SECOND, b'.').number(sale.time % SECOND, 9, b',').bytes(name, b',');
        self.bytes(&[sale.kind], b',').dollars(u64::from(sale.price), b',');
        self.number(sale.shares, 1, b',').number(sale.trade, 1, b'\n');
    }

    fn bar(&mut self, sales: &[Sale], name: &[u8], seconds: u64) {
        let (first, last) = (sales[0], sales[sales.len() - 1]);
        let (mut high, mut low, mut volume, mut notional) = (0, u32::MAX, 0, 0);
        for sale in sales {
            high = high.max(sale.price);
            low = low.min(sale.price);
            volume += u128::from(sale.shares);
            notional += u128::from(sale.price) * u128::from(sale.shares);
        }
        self.bytes(name, b',').clock(first.time / SECOND / seconds * seconds, b',');
        for price in [first.price, high, low, last.price] {
            self.dollars(u64::from(price), b',');
        }
        self.sum(volume, b',').number(sales.len() as u64, 1, b',').dollars((notional / volume) as u64, b'+');
        self.sum(notional % volume, b'/').sum(volume, b'\n');
    }
}

fn main() {
    // A thread that panics ends the program, because others may wait for it.
    std::panic::set_hook(Box::new(|panic| {
        eprintln!("{panic}");
        std::process::exit(101);
    }));
    let words: Vec<String> = std::env::args().skip(1).collect();
    let [path, what, seconds, threads] = &words[..] else {
        panic!("plain FILE sales|bars|read SECONDS THREADS");
    };
    let (seconds, threads) = (if what == "bars" { seconds.parse().unwrap() } else { 0 }, threads.parse().unwrap());
    let blocks = Blocks::of(path);
    let (count, buffer) = (blocks.length.div_ceil(BLOCK), || vec![0; BLOCK + LONGEST_FRAME]);
    if what == "read" {
        on_threads(threads, count, buffer, |bytes, block| blocks.read(block, bytes));
        return;
    }
    let take = |(bytes, rows): &mut (Vec<u8>, Rows), block| blocks.take(block, bytes, rows, seconds);
    let taken = on_threads(threads, count, || (buffer(), Rows::new()), take);
    let rows: Vec<Rows> = taken.into_iter().map(|(_, rows)| rows).collect();
    let (bounds, names) = (bounds(&rows), names(&rows));
    let broken: HashSet<u64, Hash> = rows.iter().flat_map(|rows| &rows.broken).copied().collect();
    let ranges = on_threads(threads, PARTS, parts, |ranges: &mut Parts<Sale>, part| {
        let mut keep = |sale: Sale| {
            if sale.shares > 0 && !broken.contains(&sale.trade) {
                ranges[bounds.partition_point(|bound| *bound <= sale.key)].push(sale);
            }
        };
        price(&rows, part, &mut keep);
        rows.iter().skip(part).step_by(PARTS).flat_map(|rows| &rows.other_sales).for_each(|sale| keep(*sale));
    });
    let texts = on_threads(threads, PARTS, Vec::new, |texts, range| {
        let mut sales = ranges.iter().map(|parts| &parts[range][..]).collect::<Vec<_>>().concat();
        sales.sort_unstable_by_key(|sale| (sale.key, sale.place));
        let mut text = Text::default();
        for some in sales.chunk_by(|one, next| one.key == next.key) {
            let name = names[usize::from(some[0].locate)].unwrap();
            match seconds {
                0 => text.sale(&some[0], name),
                _ => text.bar(some, name, seconds),
            }
        }
        texts.push((range, text.0));
    });
    let mut texts: Vec<_> = texts.into_iter().flatten().collect();
    texts.sort_unstable_by_key(|(range, _)| *range);
    let header: &[u8] = match seconds {
        0 => b"time,symbol,kind,price,shares,number\n",
        _ => b"symbol,start,first,high,low,last,volume,trades,average\n",
    };
    let mut out = io::stdout().lock();
    out.write_all(header).unwrap();
    texts.iter().for_each(|(_, text)| out.write_all(text).unwrap());
}
