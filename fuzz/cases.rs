// Cases of kinds: each is some paragraphs of text, without their answers. A random case is made from its number and a
// seed, so it can be made again.
use crate::notation::{frame_of, hex, written};
use crate::slow_reader::count_morsels;

/// A stream of numbers that look random, each made from the one before.
pub struct Dice(u64);

impl Dice {
    pub fn new(seed: u64, number: u64) -> Self {
        let mut dice = Dice(seed.wrapping_mul(0x9e37_79b9_7f4a_7c15) ^ number.wrapping_mul(0xd1b5_4a32_d192_ed03));
        dice.next();
        dice
    }
    fn next(&mut self) -> u64 {
        self.0 = self.0.wrapping_add(0x9e37_79b9_7f4a_7c15);
        let mut mixed = self.0;
        mixed = (mixed ^ (mixed >> 30)).wrapping_mul(0xbf58_476d_1ce4_e5b9);
        mixed = (mixed ^ (mixed >> 27)).wrapping_mul(0x94d0_49bb_1331_11eb);
        mixed ^ (mixed >> 31)
    }
    fn below(&mut self, bound: u64) -> u64 {
        self.next() % bound
    }
    fn one_in(&mut self, count: u64) -> bool {
        self.below(count) == 0
    }
    fn of<T: Copy>(&mut self, items: &[T]) -> T {
        items[self.below(items.len() as u64) as usize]
    }
}

// ---- days

/// Names, of which some have bytes that can't be shown.
const STOCKS: [&str; 7] =
    ["MSFT", "AAPL", "AB\\x20CD", "A\\x2cB", "", "\\xffZ\\x00", "\\x20LEAD"];

fn random_time(dice: &mut Dice) -> String {
    let second = 1_000_000_000;
    let time: u64 = match dice.below(10) {
        0 => dice.of(&[0, 34_260 * second - 1, 34_260 * second, 34_260 * second + 1]),
        1 => dice.of(&[86_400 * second - 1, 86_400 * second, 100_000 * second, (1 << 48) - 1]),
        _ => 34_200 * second + dice.below(180 * second),
    };
    let seconds = time / second;
    format!("{:02}:{:02}:{:02}.{:09}", seconds / 3600, seconds / 60 % 60, seconds % 60, time % second)
}

fn random_price(dice: &mut Dice) -> u32 {
    if dice.one_in(12) { dice.of(&[0, 1, 9_999, 10_000, u32::MAX]) } else { 4_105_000 + dice.below(7) as u32 }
}

fn random_shares(dice: &mut Dice) -> u64 {
    if dice.one_in(5) { 0 } else { 1 + dice.below(9) }
}

/// A message, as a word. References and match numbers are few, so that they meet.
fn random_message(dice: &mut Dice, given: &mut Vec<u64>) -> String {
    let mut kind = dice.of(b"RAAAFEEEECCUUPPQBZS");
    if kind == b'E' && given.is_empty() && !dice.one_in(20) {
        kind = b'A';
    }
    let locate = dice.of(&[7, 7, 8, 9, 65_535]);
    let time = random_time(dice);
    let fresh = if dice.one_in(80) { 1 + dice.below(12) } else { given.len() as u64 * 37 + 100 };
    let known = if given.is_empty() || dice.one_in(100) { 1 + dice.below(12) } else { dice.of(given) };
    let number = 1 + dice.below(14);
    let (price, shares) = (random_price(dice), random_shares(dice));
    if b"AFU".contains(&kind) {
        given.push(fresh);
    }
    let form = match kind {
        b'A' => format!("A({fresh},{price})"),
        b'F' => format!("F({fresh},{price})"),
        b'U' => format!("U({known},{fresh},{price})"),
        b'E' => format!("E({known},{shares},{number})"),
        b'C' => format!("C({known},{shares},{number},{},{price})", dice.of(b"YYYNyx") as char),
        b'P' => format!("P({shares},{price},{number})"),
        b'Q' => format!("Q({},{price},{number})", dice.of(&[shares, shares, 5_000_000_000, u64::MAX])),
        b'B' => format!("B({number})"),
        b'R' => format!("R({locate},{})", dice.of(&STOCKS)),
        _ => {
            let mut body = [kind, 0, 7, 0, 0, 0x1f, 0x1a, 0xce, 0xd9, 0xf0, 0].to_vec();
            body.truncate(dice.below(12) as usize);
            return framed(&body);
        }
    };
    // (a directory has its locate, and that of a form is 7 if nothing is said)
    if kind == b'R' || locate == 7 { format!("{form}@{time}") } else { format!("{form}@{time}#{locate}") }
}

/// The frame of any body, in hexadecimal.
fn framed(body: &[u8]) -> String {
    hex(&(body.len() as u16).to_be_bytes()) + &hex(body)
}

/// A day, a word for each message: mostly right, and sometimes damaged in one of several ways.
fn random_day(dice: &mut Dice) -> Vec<String> {
    let (mut words, mut given) = (Vec::new(), Vec::new());
    for _ in 0..dice.below(26) {
        let word = random_message(dice, &mut given);
        let mut body = frame_of(&word)[2..].to_vec();
        let damage = dice.below(300);
        match damage {
            0 => body.push(0),
            1 => drop(body.pop()),
            2 if !body.is_empty() => body[0] = dice.of(b"ARQEZ"),
            3 => body.clear(),
            _ => {}
        }
        words.push(if damage < 4 { framed(&body) } else { word });
    }
    let at = dice.below(words.len() as u64 + 1) as usize;
    match dice.below(24) {
        0 if at < words.len() => {
            let frame = frame_of(&words[at]);
            words.truncate(at);
            words.push(hex(&frame[..dice.below(frame.len() as u64) as usize]));
        }
        1 => words.push("00".to_string()),
        2 => words.push("0000".to_string()),
        3 if at < words.len() => {
            let mut frame = frame_of(&words[at]);
            let place = dice.below(frame.len() as u64) as usize;
            frame[place] ^= 1 << dice.below(8);
            words[at] = hex(&frame);
        }
        _ => {}
    }
    words.retain(|word| !word.is_empty());
    words
}

// ---- queries

const TIMES: [&str; 7] = ["09:30:00", "09:31:00", "09:31:01", "09:32:30", "24:00:00", "00:00:00", "23:59:59"];

fn random_span(dice: &mut Dice) -> String {
    let (one, other) = (dice.of(&TIMES), dice.of(&TIMES));
    let rise = one <= other || dice.one_in(8);
    let (since, until) = if rise { (one, other) } else { (other, one) };
    format!("time from {since} until {until}")
}

fn random_condition(dice: &mut Dice, which: u64) -> String {
    match which % 3 {
        0 => format!("symbol in {}", dice.of(&["MSFT", "AAPL,MSFT", "#7", "#8,AB?CD", "A?B", "?LEAD", "?Z?", "X,X"])),
        1 => random_span(dice),
        _ => format!("kind in {}", dice.of(&["E", "C", "P", "Q", "E,P", "Q,C,E", "P,P"])),
    }
}

fn random_query(dice: &mut Dice) -> Vec<u8> {
    let mut text = if dice.one_in(2) {
        "sales".to_string()
    } else {
        let odd = dice.one_in(6);
        let right = ["1", "7", "00024", "2", "5"];
        let number = dice.of(if odd { &["0", "86400", "86401", "99999", "123456"] } else { &right });
        format!("bars {number} {}", dice.of(if odd { b"smhsx" } else { b"smhsm" }) as char)
    };
    if dice.one_in(4) {
        text += &format!(" as of {}", dice.of(&TIMES));
    }
    if dice.one_in(2) {
        let mut which = dice.below(3);
        text += &format!(" where {}", random_condition(dice, which));
        while dice.one_in(3) {
            which += if dice.one_in(6) { dice.below(3) } else { 1 };
            text += &format!(" and {}", random_condition(dice, which));
        }
    }
    let mut text = text.into_bytes();
    if dice.one_in(12) {
        let at = dice.below(text.len() as u64 + 1) as usize;
        match dice.below(4) {
            0 => text.insert(at, dice.of(b"  a,:9\t")),
            1 if at < text.len() => {
                text.remove(at);
            }
            2 => text.truncate(at),
            _ => text.splice(0..0, b"  ".iter().copied()).for_each(drop),
        }
    }
    text
}

// ---- ways

fn random_morsel(dice: &mut Dice) -> u32 {
    dice.of(&[1, 1, 40, 64, 100, 300, 1 << 30])
}

fn random_threads(dice: &mut Dice) -> String {
    let way = dice.of(&["answer", "run", "answer_blocks", "run_blocks"]);
    let (workers, gatherers) = (1 + dice.below(4), 1 + dice.below(3));
    let (morsel, parts) = (random_morsel(dice), dice.of(&[1, 2, 3, 5, 8, 64, 256]));
    format!("{way} --workers {workers} --gatherers {gatherers} --morsel {morsel} --partitions {parts}")
}

/// A schedule that mostly lets each task arrive, in any order, some of them again, with losses and merges between.
fn random_schedule(dice: &mut Dice, gatherers: u64, tasks: u64) -> String {
    let arrives = |gatherer: u64, task: u64| format!(" Arrive({gatherer},{task})");
    let mut events: Vec<String> = (0..tasks).map(|task| arrives(dice.below(gatherers), task)).collect();
    if tasks > 0 && dice.one_in(6) {
        let task = dice.below(tasks);
        events[task as usize] = format!(" Lose({task})");
    }
    for _ in 0..dice.below(6) {
        let gatherer = dice.below(gatherers + 1);
        events.push(match dice.below(4) {
            0 => arrives(gatherer, dice.below(tasks + 2)),
            1 => format!(" Lose({})", dice.below(tasks + 2)),
            _ => format!(" Merge({gatherer},{})", dice.below(gatherers + 1)),
        });
    }
    for last in (1..events.len()).rev() {
        events.swap(last, dice.below(last as u64 + 1) as usize);
    }
    events.concat()
}

fn random_rehearsal(dice: &mut Dice, day: &[u8]) -> String {
    let (gatherers, morsel, parts) = (1 + dice.below(4), random_morsel(dice), dice.of(&[1, 2, 3, 5]));
    let tasks = count_morsels(day, morsel.into()).unwrap_or(0);
    let (first, second) = (random_schedule(dice, gatherers, tasks), random_schedule(dice, gatherers, parts));
    format!("first{first}\nsecond{second}\nrehearse --gatherers {gatherers} --morsel {morsel} --partitions {parts}\n")
}

pub fn random_case(seed: u64, number: u64) -> Vec<String> {
    let mut dice = Dice::new(seed, number);
    let words = random_day(&mut dice);
    let query = written(&random_query(&mut dice), |byte| (32..127).contains(&byte) && byte != b'"' && byte != b'\\');
    let asked = format!("day {}\nquery \"{query}\"\n", words.join(" "));
    let mut cases = vec![format!("{asked}plain\n")];
    if dice.one_in(16) {
        cases[0] += &(random_threads(&mut dice) + "\n");
    }
    if dice.one_in(2) {
        let day: Vec<u8> = words.iter().flat_map(|word| frame_of(word)).collect();
        cases.push(asked + &random_rehearsal(&mut dice, &day));
    }
    cases
}

// ---- kinds of which there are so many cases

/// A stock, an order and its execution: 112 bytes, with frames at 0, 41 and 79.
const ONE_SALE: &str = "R(7,MSFT) A(1,4105000) E(1,40,9)";

/// The same, then three breaks, of the execution, of a trade after it and of nothing, and two trades: 267 bytes.
const WITH_BREAKS: &str =
    "R(7,MSFT) A(1,4105000) E(1,40,9) B(9) B(15) P(50,4105100,15) B(99) P(10,4105200,18)";

const DAYS: [(&str, usize); 2] = [(ONE_SALE, 112), (WITH_BREAKS, 267)];

const QUERIES: [&str; 2] = ["sales", "bars 1 m as of 09:31:00"];

const RUN: &str = "run --workers 2 --morsel 1 --partitions 3\n";
const ANSWER: &str = "answer --workers 2 --gatherers 2 --morsel 60\n";
const BLOCKS: &str = "answer_blocks --workers 3 --morsel 1 --partitions 8\n";

fn varied(day: &str, query: &str, vary: String, ways: &str) -> String {
    format!("day {day}\nquery \"{query}\"\nvary {vary}\nplain\n{ways}")
}

/// Each length of a small file, set to all values of two bytes.
fn lengths() -> Vec<String> {
    let values = |place| (0..16).map(move |part| format!("pair {place} {}..{}", part * 4096, part * 4096 + 4095));
    [0, 41, 79].into_iter().flat_map(values).map(|vary| varied(ONE_SALE, "sales", vary, RUN)).collect()
}

/// A small file and a query, as often as this makes a case of them.
fn of_each(cases: impl Fn(&str, usize, &str) -> Vec<String>) -> Vec<String> {
    DAYS.iter().flat_map(|(day, length)| QUERIES.iter().flat_map(|query| cases(day, *length, query)).collect::<Vec<_>>()).collect()
}

/// Each byte of both files, set to all values.
fn bytes() -> Vec<String> {
    let threads = |place: usize| [RUN, if place % 8 == 0 { ANSWER } else { "" }, if place % 8 == 4 { BLOCKS } else { "" }].concat();
    let each = |day: &str, length: usize, query: &str| -> Vec<String> {
        (0..length).map(|place| varied(day, query, format!("byte {place} 0..255"), &threads(place))).collect()
    };
    of_each(each)
}

/// Both files, cut off after each number of bytes.
fn cuts() -> Vec<String> {
    let ways = [RUN, ANSWER, BLOCKS].concat();
    of_each(|day, length, query| vec![varied(day, query, format!("length 0..{length}"), &ways)])
}

/// Both files by each size of morsels and several crews, and rehearsed.
fn morsels() -> Vec<String> {
    let crews = ["--workers 1", "--workers 2", "--workers 4", "--workers 3 --gatherers 2"];
    let by_crews: String = crews.iter().map(|crew| format!("answer {crew}\nrun {crew} --partitions 3\n")).collect();
    let ways = by_crews + "rehearse --gatherers 3 --partitions 5\n";
    of_each(|day, length, query| vec![varied(day, query, format!("morsel 1..{}", length + 2), &ways)])
}

/// Three of eleven messages in each order; three of nine, of which some are late, in each order, as of two moments.
fn threes() -> Vec<String> {
    let forms = "R(7,MSFT) R(7,ZVZZT) A(1,4105000) F(1,4106000) U(2,1,4107000) E(1,40,9) C(1,30,9,Y,4104000) \
                 P(50,4105100,9) Q(60,4105200,9) B(9) 00015a";
    let late = "R(7,MSFT) R(7,ZVZZT)@09:30:03 A(1,4105000) A(1,4106000)@09:30:03 E(1,40,9) P(50,4105100,9) B(9) \
                B(9)@09:30:03 00015a";
    let mut cases = Vec::new();
    for (forms, queries) in [(forms, &["sales"][..]), (late, &["sales as of 09:30:02", "sales as of 09:30:01"])] {
        let forms: Vec<&str> = forms.split_whitespace().collect();
        for (one, two) in forms.iter().flat_map(|one| forms.iter().map(move |two| (one, two))) {
            for query in queries {
                let days = forms.iter().map(|three| format!("day {one} {two} {three}\nquery \"{query}\"\nplain\n"));
                cases.extend(days);
            }
        }
    }
    cases
}

/// The cases of a kind; none of one that isn't known.
pub fn cases_of(kind: &str) -> Vec<String> {
    match kind {
        "lengths" => lengths(),
        "bytes" => bytes(),
        "cuts" => cuts(),
        "morsels" => morsels(),
        "threes" => threes(),
        _ => Vec::new(),
    }
}
