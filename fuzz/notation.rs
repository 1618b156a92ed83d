// Cases as text, which the head of crates/answer_cases/stdin describes: what their lines say, and, by the slow reader,
// what has to come of them. It shares no code with the product.
use crate::slow_reader;

/// The line behind which the answers of a case stand.
pub const ANSWERS: &str = "----";

// ---- days

/// The bytes of a number in hexadecimal.
fn bytes_of(digits: &str) -> Vec<u8> {
    (0..digits.len()).step_by(2).map(|at| u8::from_str_radix(&digits[at..at + 2], 16).unwrap()).collect()
}

pub fn hex(bytes: &[u8]) -> String {
    bytes.iter().map(|byte| format!("{byte:02x}")).collect()
}

/// The bytes of a text in which `\x2c` stands for the byte 2c.
fn text_of(text: &str) -> Vec<u8> {
    let mut parts = text.split("\\x");
    let mut bytes = parts.next().unwrap().as_bytes().to_vec();
    for part in parts {
        bytes.extend(bytes_of(&part[..2]));
        bytes.extend(&part.as_bytes()[2..]);
    }
    bytes
}

/// A text that stands for these bytes, of which those that are kept stand as they are.
pub fn written(bytes: &[u8], keeps: impl Fn(u8) -> bool) -> String {
    bytes.iter().map(|byte| if keeps(*byte) { (*byte as char).to_string() } else { format!("\\x{byte:02x}") }).collect()
}

/// The last six bytes of a time's nanoseconds.
fn time_of(text: &str) -> Vec<u8> {
    let (clock, rest) = text.split_once('.').unwrap_or((text, "0"));
    let seconds = clock.split(':').fold(0, |seconds, part| seconds * 60 + part.parse::<u64>().unwrap());
    (seconds * 1_000_000_000 + rest.parse::<u64>().unwrap()).to_be_bytes()[2..].to_vec()
}

/// The frame of a word, or the bytes that it gives.
pub fn frame_of(word: &str) -> Vec<u8> {
    let Some((letter, fields)) = word.split_once('(') else {
        let (digits, times) = word.split_once('*').unwrap_or((word, "1"));
        return bytes_of(digits).repeat(times.parse().unwrap());
    };
    let (fields, behind) = fields.split_once(')').unwrap();
    let fields: Vec<&str> = fields.split(',').collect();
    let number = |at: usize, count: usize| fields[at].parse::<u64>().unwrap().to_be_bytes()[8 - count..].to_vec();
    let stock = |text: &str| [&text_of(text), &[b' '; 8][..]].concat()[..8].to_vec();
    let bytes = |text: &[u8]| text.to_vec();
    let (usual, mut locate) = match letter {
        "R" => ("00:00:00", number(0, 2)),
        "A" | "F" | "U" | "B" => ("09:30:00", vec![0, 7]),
        _ => ("09:30:01.000000005", vec![0, 7]),
    };
    let parts = match letter {
        "R" => vec![stock(fields[1]), bytes(&[b' '; 20])],
        "A" => vec![number(0, 8), bytes(b"B\x00\x00\x00\x64MSFT    "), number(1, 4)],
        "F" => vec![number(0, 8), bytes(b"B\x00\x00\x00\x64MSFT    "), number(1, 4), bytes(b"NSDQ")],
        "U" => vec![number(0, 8), number(1, 8), bytes(&[0, 0, 0, 100]), number(2, 4)],
        "B" => vec![number(0, 8)],
        "E" => vec![number(0, 8), number(1, 4), number(2, 8)],
        "C" => vec![number(0, 8), number(1, 4), number(2, 8), bytes(fields[3].as_bytes()), number(4, 4)],
        "P" => vec![bytes(b"\0\0\0\0\0\0\0\0B"), number(0, 4), stock("MSFT"), number(1, 4), number(2, 8)],
        "Q" => vec![number(0, 8), stock("MSFT"), number(1, 4), number(2, 8), bytes(b"O")],
        _ => panic!("no form: {word}"),
    };
    let (behind, other) = behind.split_once('#').unwrap_or((behind, ""));
    if !other.is_empty() {
        locate = other.parse::<u16>().unwrap().to_be_bytes().to_vec();
    }
    let time = time_of(behind.strip_prefix('@').unwrap_or(usual));
    let body = [letter.as_bytes(), &locate, &[0, 0], &time, &parts.concat()].concat();
    [&(body.len() as u16).to_be_bytes()[..], &body].concat()
}

// ---- cases

type Range = (u32, u32);

/// An event: its name, a gatherer, and a task or another gatherer.
type Event = (String, u32, u32);

/// What the lines of a case say.
#[derive(Default)]
pub struct Case {
    query: Vec<u8>,
    day: Option<Vec<u8>>,
    vary: Vec<String>,
    ends: Option<u64>,
    first: Option<Vec<Event>>,
    second: Option<Vec<Event>>,
    ways: Vec<String>,
    words: bool,
}

fn range_of(text: &str) -> Range {
    let (first, last) = text.split_once("..").unwrap_or((text, text));
    (first.parse().unwrap(), last.parse().unwrap())
}

fn add_events(events: &mut Vec<Event>, text: &str) {
    for word in text.split_whitespace() {
        let (name, fields) = word.strip_suffix(')').unwrap().split_once('(').unwrap();
        let (one, other) = fields.split_once(',').unwrap_or(("0", fields));
        let (from, to) = range_of(other);
        let tasks: Vec<u32> = if from <= to { (from..=to).collect() } else { (to..=from).rev().collect() };
        events.extend(tasks.into_iter().map(|task| (name.to_string(), one.parse().unwrap(), task)));
    }
}

/// The bytes of quoted texts, each as often as a number behind it says.
fn quoted(text: &str) -> Vec<u8> {
    let parts: Vec<&str> = text.split('"').collect();
    let times = |at: usize| parts[at + 1].trim().strip_prefix('*').map_or(1, |times| times.parse().unwrap());
    (1..parts.len() - 1).step_by(2).flat_map(|at| text_of(parts[at]).repeat(times(at))).collect()
}

impl Case {
    pub fn of(head: &str) -> Case {
        let mut case = Case::default();
        for line in head.lines() {
            let (name, rest) = line.split_once(' ').unwrap_or((line, ""));
            match name {
                "#" | "usually" => {}
                "day" => case.day.get_or_insert_default().extend(rest.split_whitespace().flat_map(frame_of)),
                "query" => case.query = quoted(rest),
                "words" => case.words = true,
                "vary" => case.vary = rest.split_whitespace().map(str::to_string).collect(),
                "ends" => case.ends = Some(rest.split_whitespace().count() as u64),
                "first" => add_events(case.first.get_or_insert_default(), rest),
                "second" => add_events(case.second.get_or_insert_default(), rest),
                _ => case.ways.push(line.to_string()),
            }
        }
        case
    }

    /// How many answers are asked for.
    pub fn answers(&self) -> u64 {
        let values = if self.vary.is_empty() { 1 } else { self.values().count() as u64 };
        values * self.ways.len().max(1) as u64
    }

    fn values(&self) -> impl Iterator<Item = u32> {
        let values = self.vary.last().unwrap();
        let (values, step) = values.split_once('/').unwrap_or((values, "1"));
        let (first, last) = range_of(values);
        (first..=last).step_by(step.parse().unwrap())
    }

    /// What has to come of the case; None if no slow reader says it.
    pub fn wanted(&self) -> Option<Vec<u8>> {
        match &self.day {
            None => Some(meaning(&self.query)),
            Some(_) if self.words => None,
            Some(day) if self.vary.is_empty() => Some(self.answer(day)),
            Some(day) => Some(self.answers_of_each(day)),
        }
    }

    /// The answer to the query over a day, as a line or more.
    fn answer(&self, day: &[u8]) -> Vec<u8> {
        let mut answer = slow_reader::slow_answer(day, &self.query);
        let way = self.ways.first().map_or("", String::as_str);
        if way.starts_with("rehearse") && !slow_reader::is_truncated(day) && slow_reader::is_query(&self.query) {
            answer = self.missing(day, way).map_or(answer, String::into_bytes);
        }
        if !answer.ends_with(b"\n") {
            answer.push(b'\n');
        }
        answer
    }

    /// What is told if a task doesn't arrive that has to.
    fn missing(&self, day: &[u8], way: &str) -> Option<String> {
        let option = |name: &str, usual: u64| {
            let mut words = way.split(' ').skip_while(|word| *word != name);
            words.nth(1).map_or(usual, |number| number.parse().unwrap())
        };
        let cut = slow_reader::count_morsels(day, option("--morsel", 1_048_576)).unwrap();
        let morsels = self.ends.map_or(cut, |ends| ends + 1);
        let first_missing = |events: &Option<Vec<Event>>, tasks: u64| {
            let events = events.as_ref()?;
            let arrives = |task: &u64| {
                let is_it = |(name, gatherer, other): &Event| {
                    name == "Arrive" && u64::from(*gatherer) < option("--gatherers", 1) && u64::from(*other) == *task
                };
                events.iter().any(is_it)
            };
            (0..tasks).find(|task| !arrives(task))
        };
        if let Some(task) = first_missing(&self.first, morsels) {
            return Some(format!("missing: pipeline 1, task {task}"));
        }
        if slow_reader::has_wrong_length(day) {
            return None;
        }
        let task = first_missing(&self.second, option("--partitions", 64))?;
        Some(format!("missing: pipeline 2, task {task}"))
    }

    /// The answers with each of the values; those that follow one another and are equal stand once.
    fn answers_of_each(&self, day: &[u8]) -> Vec<u8> {
        let answers: Vec<(u32, Vec<u8>)> =
            self.values().map(|value| (value, self.answer(&self.changed(day, value)))).collect();
        let mut out = Vec::new();
        for equal in answers.chunk_by(|one, other| one.1 == other.1) {
            let (from, to) = (equal[0].0, equal[equal.len() - 1].0);
            let head = if from == to { format!("-- {from}\n") } else { format!("-- {from}..{to}\n") };
            out.extend(head.bytes().chain(equal[0].1.iter().copied()));
        }
        out
    }

    /// The day if what is varied has this value.
    fn changed(&self, day: &[u8], value: u32) -> Vec<u8> {
        let mut day = day.to_vec();
        let count = match self.vary[0].as_str() {
            "byte" => 1,
            "pair" => 2,
            "length" => {
                day.truncate(value as usize);
                return day;
            }
            _ => return day,
        };
        let place: usize = self.vary[1].parse().unwrap();
        day[place..place + count].copy_from_slice(&value.to_be_bytes()[4 - count..]);
        day
    }
}

/// A canonical text of more bytes is written only if it isn't the text that was read.
const LONG_TEXT: usize = 1_000;

/// What a query means: its canonical text and its numbers, or its fault. The canonical text has to mean the same.
fn meaning(query: &[u8]) -> Vec<u8> {
    match slow_reader::slow_query(query) {
        Err(fault) => format!("{fault}\n").into_bytes(),
        Ok((text, numbers)) => {
            let again = slow_reader::slow_query(text.as_bytes());
            assert!(again.is_ok_and(|(again, others)| again == text && others == numbers), "no canonical text: {text}");
            let is_long = text.len() > LONG_TEXT && text.as_bytes() == query;
            format!("{}{numbers}\n", if is_long { "the very text" } else { &text }).into_bytes()
        }
    }
}

/// The paragraphs of a text of cases, each without its empty line; and of a paragraph what stands before its answers.
pub fn head_of(paragraph: &str) -> Option<&str> {
    let at = paragraph.find("\n----\n").or_else(|| paragraph.strip_suffix("\n----").map(str::len))?;
    Some(&paragraph[..at])
}
