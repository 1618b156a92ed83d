// Feeds cases to `answer_cases`, and compares what it writes with what the slow reader says.
//   drive PROGRAM KIND SEED FIRST COUNT    compares; prints the number of cases, answers and faults
//   drive count KIND                       prints how many cases a kind has
//   drive show KIND SEED NUMBER            prints a case with its answers
//   drive answer                           writes the cases that it reads again, with the slow reader's answers; it leaves
//                                          what comes of command lines, which was written by hand
mod cases;
mod notation;
mod slow_reader;

use notation::{ANSWERS, Case, head_of};
use std::io::{BufRead, BufReader, Read, Write};
use std::process::{Command, Stdio, exit};
use std::sync::mpsc;
use std::time::Duration;

/// How long one case may take; a slow machine is far from that.
const LIMIT: Duration = Duration::from_secs(120);

/// How many cases are under way at once.
const AHEAD: usize = 64;

/// The paragraphs of a case.
fn case_of(kind: &str, kinds: &[String], seed: u64, number: u64) -> Vec<String> {
    if kind == "random" { cases::random_case(seed, number) } else { vec![kinds[number as usize].clone()] }
}

/// A paragraph with the answers that it has to have.
fn answered(head: &str) -> String {
    let wanted = Case::of(head).wanted().expect("no answer");
    format!("{head}{ANSWERS}\n{}\n", String::from_utf8(wanted).expect("no text"))
}

/// Writes cases again, with the slow reader's answers.
fn answer(text: &str) -> String {
    let again = |paragraph: &str| match head_of(paragraph) {
        Some(head) if Case::of(head).wanted().is_some() => answered(&format!("{head}\n")).trim_end_matches('\n').to_string(),
        _ => paragraph.to_string(),
    };
    let paragraphs: Vec<String> = text.trim_end_matches('\n').split("\n\n").map(again).collect();
    paragraphs.join("\n\n") + "\n"
}

fn stop_at(kind: &str, seed: u64, number: u64, paragraphs: &[String], what: &str) -> ! {
    println!("DIFFERENCE: {what}\ncase {number} of {kind}, seed {seed}");
    paragraphs.iter().for_each(|head| print!("{}", answered(head)));
    exit(1)
}

fn compare(program: &str, kind: &str, seed: u64, first: u64, count: u64) {
    let kinds = cases::cases_of(kind);
    let mut child = Command::new(program).stdin(Stdio::piped()).stdout(Stdio::piped()).spawn().expect("no program");
    let mut input = child.stdin.take().unwrap();
    let mut output = BufReader::new(child.stdout.take().unwrap());
    let (to_writer, written) = mpsc::channel::<String>();
    let (to_reader, lines) = mpsc::channel::<Vec<u8>>();
    std::thread::spawn(move || written.iter().all(|text| input.write_all(text.as_bytes()).is_ok()));
    std::thread::spawn(move || {
        let mut line = Vec::new();
        while output.read_until(b'\n', &mut line).is_ok_and(|count| count > 0) {
            if to_reader.send(std::mem::take(&mut line)).is_err() {
                break;
            }
        }
    });
    let mut waiting: std::collections::VecDeque<(u64, Vec<String>)> = Default::default();
    let (mut answers, mut faults) = (0, 0);
    for number in first..first + count + AHEAD as u64 {
        if number < first + count {
            let paragraphs = case_of(kind, &kinds, seed, number);
            let text: String = paragraphs.iter().map(|head| format!("{head}{ANSWERS}\n\n")).collect();
            let _ = to_writer.send(text);
            waiting.push_back((number, paragraphs));
            if waiting.len() < AHEAD {
                continue;
            }
        }
        let Some((at, paragraphs)) = waiting.pop_front() else {
            break;
        };
        for head in &paragraphs {
            let wanted = answered(head);
            for line in wanted.split_inclusive('\n') {
                let what = match lines.recv_timeout(LIMIT) {
                    Ok(told) if told == line.as_bytes() => {
                        faults += u64::from(line.starts_with("fault: "));
                        continue;
                    }
                    Ok(told) => format!("written {:?}, not {line:?}", String::from_utf8_lossy(&told)),
                    Err(mpsc::RecvTimeoutError::Timeout) => "the case doesn't end".to_string(),
                    Err(mpsc::RecvTimeoutError::Disconnected) => "the program has ended".to_string(),
                };
                let _ = child.kill();
                stop_at(kind, seed, at, &paragraphs, &what);
            }
            answers += Case::of(head).answers();
        }
    }
    drop(to_writer);
    if !child.wait().expect("no status").success() {
        stop_at(kind, seed, first + count, &[], "the program ended with a fault");
    }
    println!("{kind} {count} cases {answers} answers {faults} faults");
}

fn main() {
    let words: Vec<String> = std::env::args().collect();
    let number = |at: usize| words.get(at).and_then(|word| word.parse::<u64>().ok()).unwrap_or(0);
    let kind = words.get(2).map_or("", String::as_str);
    match words[1].as_str() {
        "answer" => {
            let mut text = String::new();
            std::io::stdin().read_to_string(&mut text).expect("no text");
            print!("{}", answer(&text));
        }
        "count" => println!("{}", cases::cases_of(kind).len()),
        "show" => {
            let paragraphs = case_of(kind, &cases::cases_of(kind), number(3), number(4));
            paragraphs.iter().for_each(|head| print!("{}", answered(head)));
        }
        program => compare(program, kind, number(3), number(4), number(5)),
    }
}
