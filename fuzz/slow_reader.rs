// A slow reader of day files: it answers a query by the definitions, and by nothing else. docs/DEFINITIONS.md and
// docs/FORMATS.md say what it follows. It filters and searches whole lists, and each question is asked of all of them
// again; it knows no cut, no table of orders and no thread. It shares no code with the product.

// ---- frames

/// A body, and the offset of its frame.
struct Frame<'a> {
    place: u64,
    body: &'a [u8],
}

/// The frames of a file in order, and where it is truncated, if it is.
fn frames_of(file: &[u8]) -> (Vec<Frame<'_>>, Option<u64>) {
    let mut frames = Vec::new();
    let mut place = 0;
    while place < file.len() {
        let rest = &file[place..];
        if rest.len() < 2 {
            return (frames, Some(place as u64));
        }
        let length = rest[0] as usize * 256 + rest[1] as usize;
        if length > rest.len() - 2 {
            return (frames, Some(place as u64));
        }
        frames.push(Frame { place: place as u64, body: &rest[2..2 + length] });
        place += 2 + length;
    }
    (frames, None)
}

// ---- bodies

/// The letters of the types that are read, and their lengths.
const LENGTHS: [(u8, usize); 9] = [
    (b'A', 36),
    (b'F', 40),
    (b'E', 31),
    (b'C', 36),
    (b'U', 35),
    (b'P', 44),
    (b'Q', 40),
    (b'B', 19),
    (b'R', 39),
];

fn wanted_length(body: &[u8]) -> Option<usize> {
    let kind = *body.first()?;
    LENGTHS.iter().find(|(letter, _)| *letter == kind).map(|(_, length)| *length)
}

fn number_at(body: &[u8], offset: usize, count: usize) -> u64 {
    body[offset..offset + count].iter().fold(0, |number, byte| number * 256 + u64::from(*byte))
}

/// A message that is read: where it stands, and its body.
#[derive(Clone, Copy)]
struct Message<'a> {
    place: u64,
    body: &'a [u8],
}

impl Message<'_> {
    fn kind(&self) -> u8 {
        self.body[0]
    }
    fn locate(&self) -> u64 {
        number_at(self.body, 1, 2)
    }
    fn time(&self) -> u64 {
        number_at(self.body, 5, 6)
    }
}

/// An order reference that a message gives, with its price.
struct Order {
    place: u64,
    reference: u64,
    price: u64,
}

fn orders_of(messages: &[Message<'_>]) -> Vec<Order> {
    let mut orders = Vec::new();
    for message in messages {
        let body = message.body;
        match message.kind() {
            b'A' | b'F' => orders.push(Order {
                place: message.place,
                reference: number_at(body, 11, 8),
                price: number_at(body, 32, 4),
            }),
            b'U' => orders.push(Order {
                place: message.place,
                reference: number_at(body, 19, 8),
                price: number_at(body, 31, 4),
            }),
            _ => {}
        }
    }
    orders
}

/// The price of the first order that gives the reference, where it stands before the place.
fn price_before(orders: &[Order], reference: u64, place: u64) -> Option<u64> {
    let first = orders.iter().find(|order| order.reference == reference)?;
    (first.place < place).then_some(first.price)
}

/// The first order whose reference an order before it gave.
fn first_repeated(orders: &[Order]) -> Option<&Order> {
    orders.iter().find(|order| {
        orders.iter().any(|other| other.place < order.place && other.reference == order.reference)
    })
}

#[derive(Clone, Copy)]
struct Sale {
    place: u64,
    time: u64,
    locate: u64,
    kind: u8,
    price: u64,
    shares: u64,
    number: u64,
}

/// The trade of a message, if it has one.
fn trade_of(orders: &[Order], message: &Message<'_>) -> Option<Sale> {
    let body = message.body;
    let (price, shares, number) = match message.kind() {
        b'E' => (
            price_before(orders, number_at(body, 11, 8), message.place)?,
            number_at(body, 19, 4),
            number_at(body, 23, 8),
        ),
        b'C' if body[31] == b'Y' => {
            (number_at(body, 32, 4), number_at(body, 19, 4), number_at(body, 23, 8))
        }
        b'P' => (number_at(body, 32, 4), number_at(body, 20, 4), number_at(body, 36, 8)),
        b'Q' => (number_at(body, 27, 4), number_at(body, 11, 8), number_at(body, 31, 8)),
        _ => return None,
    };
    Some(Sale {
        place: message.place,
        time: message.time(),
        locate: message.locate(),
        kind: message.kind(),
        price,
        shares,
        number,
    })
}

/// The name of a locate.
fn name_of(messages: &[Message<'_>], locate: u64) -> Vec<u8> {
    let last = messages
        .iter()
        .filter(|message| message.kind() == b'R' && message.locate() == locate)
        .max_by_key(|message| message.place);
    let Some(last) = last else {
        return format!("#{locate}").into_bytes();
    };
    let mut name = last.body[11..19].to_vec();
    while name.last() == Some(&b' ') {
        name.pop();
    }
    name.iter().map(|byte| if (33..=126).contains(byte) && *byte != b',' { *byte } else { b'?' }).collect()
}

// ---- queries

#[derive(Clone)]
struct Query {
    width: Option<u64>,
    as_of: Option<u64>,
    symbols: Option<Vec<Vec<u8>>>,
    span: Option<(u64, u64)>,
    kinds: Option<Vec<u8>>,
}

/// The words of a text, each with its offset.
fn words_of(text: &[u8]) -> Vec<(usize, &[u8])> {
    let mut words = Vec::new();
    let mut at = 0;
    for part in text.split(|byte| *byte == b' ') {
        if !part.is_empty() {
            words.push((at, part));
        }
        at += part.len() + 1;
    }
    words
}

fn unknown(at: usize) -> String {
    format!("query byte {at}: unknown word")
}

const TOO_EARLY: &str = "query ends too early";

/// The words that are left.
struct Words<'a> {
    words: Vec<(usize, &'a [u8])>,
    read: usize,
}

impl<'a> Words<'a> {
    fn next(&mut self) -> Option<(usize, &'a [u8])> {
        let word = self.words.get(self.read).copied();
        self.read += 1;
        word
    }
    fn must(&mut self) -> Result<(usize, &'a [u8]), String> {
        self.next().ok_or_else(|| TOO_EARLY.to_string())
    }
    fn expect(&mut self, text: &[u8]) -> Result<(), String> {
        let (at, word) = self.must()?;
        if word == text { Ok(()) } else { Err(unknown(at)) }
    }
    fn time(&mut self) -> Result<u64, String> {
        let (at, word) = self.must()?;
        seconds_of(word).ok_or_else(|| format!("query byte {at}: bad time"))
    }
}

fn digits_of(word: &[u8]) -> Option<u64> {
    if !word.iter().all(u8::is_ascii_digit) {
        return None;
    }
    Some(word.iter().fold(0, |number, digit| number * 10 + u64::from(digit - b'0')))
}

fn seconds_of(word: &[u8]) -> Option<u64> {
    if word == b"24:00:00" {
        return Some(86_400);
    }
    if word.len() != 8 || word[2] != b':' || word[5] != b':' {
        return None;
    }
    let (hours, minutes, seconds) = (digits_of(&word[..2])?, digits_of(&word[3..5])?, digits_of(&word[6..])?);
    if hours > 23 || minutes > 59 || seconds > 59 {
        return None;
    }
    Some(hours * 3600 + minutes * 60 + seconds)
}

fn width_of(words: &mut Words<'_>) -> Result<u64, String> {
    let (at, number) = words.must()?;
    let bad = format!("query byte {at}: bad number");
    if number.len() > 5 {
        return Err(bad);
    }
    let count = digits_of(number).ok_or_else(|| bad.clone())?;
    let (unit_at, unit) = words.must()?;
    let seconds = match unit {
        b"s" => 1,
        b"m" => 60,
        b"h" => 3600,
        _ => return Err(unknown(unit_at)),
    };
    let width = count * seconds;
    if (1..=86_400).contains(&width) { Ok(width) } else { Err(bad) }
}

fn is_symbol(part: &[u8]) -> bool {
    (1..=8).contains(&part.len()) && part.iter().all(|byte| (33..=126).contains(byte))
}

/// A condition, from its first word on.
fn read_condition(words: &mut Words<'_>, query: &mut Query) -> Result<(), String> {
    let (at, first) = words.must()?;
    let repeated = Err(format!("query byte {at}: condition given twice"));
    if first == b"symbol" {
        if query.symbols.is_some() {
            return repeated;
        }
        words.expect(b"in")?;
        let (at, list) = words.must()?;
        let parts: Vec<Vec<u8>> = list.split(|byte| *byte == b',').map(<[u8]>::to_vec).collect();
        if !parts.iter().all(|part| is_symbol(part)) {
            return Err(unknown(at));
        }
        query.symbols = Some(parts);
    } else if first == b"time" {
        if query.span.is_some() {
            return repeated;
        }
        words.expect(b"from")?;
        let since = words.time()?;
        words.expect(b"until")?;
        let until = words.time()?;
        if since >= until {
            return Err("query has an empty time range".to_string());
        }
        query.span = Some((since, until));
    } else if first == b"kind" {
        if query.kinds.is_some() {
            return repeated;
        }
        words.expect(b"in")?;
        let (at, list) = words.must()?;
        if !list.split(|byte| *byte == b',').all(|part| part.len() == 1 && b"ECPQ".contains(&part[0])) {
            return Err(unknown(at));
        }
        query.kinds = Some(list.iter().copied().filter(|byte| *byte != b',').collect());
    } else {
        return Err(unknown(at));
    }
    Ok(())
}

fn read_query(text: &[u8]) -> Result<Query, String> {
    let mut words = Words { words: words_of(text), read: 0 };
    let mut query = Query { width: None, as_of: None, symbols: None, span: None, kinds: None };
    let (at, first) = words.must()?;
    match first {
        b"sales" => {}
        b"bars" => query.width = Some(width_of(&mut words)?),
        _ => return Err(unknown(at)),
    }
    let mut next = words.next();
    if let Some((_, b"as")) = next {
        words.expect(b"of")?;
        query.as_of = Some(words.time()?);
        next = words.next();
    }
    let mut link: &[u8] = b"where";
    while let Some((at, word)) = next {
        if word != link {
            return Err(unknown(at));
        }
        read_condition(&mut words, &mut query)?;
        link = b"and";
        next = words.next();
    }
    Ok(query)
}

/// The words of a query's conditions, those that it has.
fn conditions_of(query: &Query) -> Vec<String> {
    let mut conditions = Vec::new();
    if let Some(symbols) = &query.symbols {
        let names: Vec<String> = symbols.iter().map(|name| String::from_utf8_lossy(name).into_owned()).collect();
        conditions.push(format!("symbol in {}", names.join(",")));
    }
    if let Some((since, until)) = query.span {
        conditions.push(format!("time from {} until {}", second_text(since), second_text(until)));
    }
    let kinds: Vec<&str> = kinds_of(query).into_iter().collect();
    if kinds.len() < 4 {
        conditions.push(format!("kind in {}", kinds.join(",")));
    }
    conditions
}

/// The kinds that a query asks for, each once.
fn kinds_of(query: &Query) -> Vec<&'static str> {
    let has = |kind: &&str| query.kinds.as_ref().is_none_or(|kinds| kinds.contains(&kind.as_bytes()[0]));
    ["E", "C", "P", "Q"].into_iter().filter(has).collect()
}

fn second_text(second: u64) -> String {
    format!("{:02}:{:02}:{:02}", second / 3600, second / 60 % 60, second % 60)
}

/// The one text in which a query is written.
fn canonical(query: &Query) -> String {
    let mut text = query.width.map_or("sales".to_string(), |width| format!("bars {width} s"));
    if let Some(moment) = query.as_of {
        text += &format!(" as of {}", second_text(moment));
    }
    for (at, condition) in conditions_of(query).iter().enumerate() {
        text += &format!(" {} {condition}", if at == 0 { "where" } else { "and" });
    }
    text
}

/// What a query means, in numbers.
fn numbers_of(query: &Query) -> String {
    let symbols = query.symbols.as_ref().map(|names| names.len() as u64);
    let (since, until) = (query.span.map(|span| span.0), query.span.map(|span| span.1));
    let numbers = [
        ("width", query.width),
        ("moment", query.as_of),
        ("symbols", symbols),
        ("since", since),
        ("until", until),
    ];
    let mut text = String::new();
    for (name, number) in numbers {
        if let Some(number) = number {
            text += &format!("; {name} {number}");
        }
    }
    text + &format!("; kinds {}", kinds_of(query).concat())
}

/// The canonical text of the query that a text spells, and its numbers, or the line of the fault.
pub fn slow_query(text: &[u8]) -> Result<(String, String), String> {
    match read_query(text) {
        Ok(query) => Ok((canonical(&query), numbers_of(&query))),
        Err(fault) => Err(format!("fault: {fault}")),
    }
}

// ---- texts

fn price_text(price: u128) -> String {
    format!("{}.{:04}", price / 10_000, price % 10_000)
}

fn clock_text(time: u64) -> String {
    let seconds = time / 1_000_000_000;
    format!("{:02}:{:02}:{:02}", seconds / 3600, seconds / 60 % 60, seconds % 60)
}

fn sales_text(messages: &[Message<'_>], sales: &[Sale]) -> Vec<u8> {
    let mut text = b"time,symbol,kind,price,shares,number\n".to_vec();
    for sale in sales {
        text.extend(format!("{}.{:09},", clock_text(sale.time), sale.time % 1_000_000_000).bytes());
        text.extend(name_of(messages, sale.locate));
        let price = price_text(sale.price.into());
        text.extend(format!(",{},{price},{},{}\n", sale.kind as char, sale.shares, sale.number).bytes());
    }
    text
}

fn bar_text(sales: &[Sale]) -> String {
    let first = sales.iter().min_by_key(|sale| sale.place).unwrap().price;
    let last = sales.iter().max_by_key(|sale| sale.place).unwrap().price;
    let high = sales.iter().map(|sale| sale.price).max().unwrap();
    let low = sales.iter().map(|sale| sale.price).min().unwrap();
    let volume: u128 = sales.iter().map(|sale| u128::from(sale.shares)).sum();
    let notional: u128 = sales.iter().map(|sale| u128::from(sale.shares) * u128::from(sale.price)).sum();
    let prices: Vec<String> = [first, high, low, last].iter().map(|price| price_text((*price).into())).collect();
    let average = price_text(notional / volume);
    format!("{},{volume},{},{average}+{}/{volume}\n", prices.join(","), sales.len(), notional % volume)
}

fn bars_text(messages: &[Message<'_>], sales: &[Sale], width: u64) -> Vec<u8> {
    let mut text = b"symbol,start,first,high,low,last,volume,trades,average\n".to_vec();
    let interval_of = |sale: &Sale| sale.time / (width * 1_000_000_000);
    let mut keys: Vec<(u64, u64)> = sales.iter().map(|sale| (sale.locate, interval_of(sale))).collect();
    keys.sort();
    keys.dedup();
    for (locate, interval) in keys {
        let own: Vec<Sale> =
            sales.iter().copied().filter(|sale| (sale.locate, interval_of(sale)) == (locate, interval)).collect();
        text.extend(name_of(messages, locate));
        text.extend(format!(",{},", clock_text(interval * width * 1_000_000_000)).bytes());
        text.extend(bar_text(&own).bytes());
    }
    text
}

// ---- the answer

/// A query asks for a sale.
fn asks_for(query: &Query, messages: &[Message<'_>], sale: &Sale) -> bool {
    let has_name = query.symbols.as_ref().is_none_or(|names| names.contains(&name_of(messages, sale.locate)));
    let has_time = query.span.is_none_or(|(since, until)| {
        since * 1_000_000_000 <= sale.time && sale.time < until * 1_000_000_000
    });
    let has_kind = query.kinds.as_ref().is_none_or(|kinds| kinds.contains(&sale.kind));
    has_name && has_time && has_kind
}

/// The text that is asked for, or what is wrong with the file.
fn answer_to(file: &[u8], query: &Query) -> Result<Vec<u8>, String> {
    let (frames, truncated) = frames_of(file);
    if let Some(place) = truncated {
        return Err(format!("place {place}: message runs past the end"));
    }
    let wrong = |frame: &&Frame<'_>| wanted_length(frame.body).is_some_and(|wanted| wanted != frame.body.len());
    if let Some(frame) = frames.iter().find(wrong) {
        let (kind, length) = (frame.body[0] as char, frame.body.len());
        let wanted = wanted_length(frame.body).unwrap();
        return Err(format!("place {}: message {kind} has length {length}, not {wanted}", frame.place));
    }
    let messages: Vec<Message<'_>> = frames
        .iter()
        .filter(|frame| wanted_length(frame.body).is_some())
        .map(|frame| Message { place: frame.place, body: frame.body })
        .filter(|message| query.as_of.is_none_or(|moment| message.time() <= moment * 1_000_000_000))
        .collect();
    answer_to_messages(&messages, query)
}

fn answer_to_messages(messages: &[Message<'_>], query: &Query) -> Result<Vec<u8>, String> {
    let orders = orders_of(messages);
    if let Some(order) = first_repeated(&orders) {
        return Err(format!("place {}: order reference {} was given before", order.place, order.reference));
    }
    let unknown = messages.iter().find(|message| {
        message.kind() == b'E'
            && price_before(&orders, number_at(message.body, 11, 8), message.place).is_none()
    });
    if let Some(message) = unknown {
        let reference = number_at(message.body, 11, 8);
        return Err(format!("place {}: order reference {reference} is not known", message.place));
    }
    let breaks: Vec<u64> =
        messages.iter().filter(|message| message.kind() == b'B').map(|message| number_at(message.body, 11, 8)).collect();
    let sales: Vec<Sale> = messages
        .iter()
        .filter_map(|message| trade_of(&orders, message))
        .filter(|sale| !breaks.contains(&sale.number) && sale.shares > 0)
        .filter(|sale| asks_for(query, messages, sale))
        .collect();
    Ok(match query.width {
        None => sales_text(messages, &sales),
        Some(width) => bars_text(messages, &sales, width),
    })
}

/// The text, or the line of the fault.
pub fn slow_answer(file: &[u8], query: &[u8]) -> Vec<u8> {
    match read_query(query).and_then(|query| answer_to(file, &query)) {
        Ok(text) => text,
        Err(fault) => format!("fault: {fault}").into_bytes(),
    }
}

/// Where a file that isn't truncated is cut, each morsel the shortest run of frames with so many bytes, or the rest.
pub fn count_morsels(file: &[u8], target: u64) -> Option<u64> {
    let (frames, truncated) = frames_of(file);
    if truncated.is_some() {
        return None;
    }
    let (mut count, mut held) = (0, 0);
    for frame in &frames {
        held += 2 + frame.body.len() as u64;
        if held >= target {
            count += 1;
            held = 0;
        }
    }
    Some(count + u64::from(held > 0))
}

/// Whether a file is truncated.
pub fn is_truncated(file: &[u8]) -> bool {
    frames_of(file).1.is_some()
}

/// Whether a file of whole frames has a wrong length, so that the second pipeline doesn't run.
pub fn has_wrong_length(file: &[u8]) -> bool {
    let (frames, _) = frames_of(file);
    frames.iter().any(|frame| wanted_length(frame.body).is_some_and(|wanted| wanted != frame.body.len()))
}

/// Whether a text is a query.
pub fn is_query(text: &[u8]) -> bool {
    read_query(text).is_ok()
}
