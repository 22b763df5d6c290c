//! The text of a round in plain Rust with the standard library and no proof.
//!
//! It reads a round's text from standard input into rows, and writes it from these again, in one pass into one vector of known size.
//! With the word `write` it writes a line by `write!`; with `append` it appends the pieces of a line one after another.
//! It exits with status 1 if the bytes are not those that it read.
use std::io::{Read, Write};

const STEPS: [&str; 6] = ["OPEN", "EWS", "OBC", "SC", "ST", "D"];

struct Row {
    id: u32,
    programme: usize,
    step: usize,
}

struct Round {
    number: u32,
    rows: Vec<Row>,
}

fn read<'a>(text: &'a str, codes: &mut Vec<&'a str>) -> Round {
    let mut places = std::collections::HashMap::new();
    let mut round = Round { number: 0, rows: Vec::new() };
    for line in text.lines() {
        let words: Vec<&str> = line.split(' ').collect();
        match words[0] {
            "round" => round.number = words[1].parse().unwrap(),
            "allot" => {
                let programme = *places.entry(words[2]).or_insert_with(|| {
                    codes.push(words[2]);
                    codes.len() - 1
                });
                let step = STEPS.iter().position(|step| *step == words[3]).unwrap();
                round.rows.push(Row { id: words[1].parse().unwrap(), programme, step });
            }
            _ => {}
        }
    }
    round
}

#[inline(never)]
fn round_text_by_write(round: &Round, codes: &[&str]) -> Vec<u8> {
    let mut out = Vec::with_capacity(round.rows.len() * 39 + 64);
    writeln!(out, "round {} seated {}", round.number, round.rows.len()).unwrap();
    for row in &round.rows {
        writeln!(out, "allot {} {} {}", row.id, codes[row.programme], STEPS[row.step]).unwrap();
    }
    out.extend_from_slice(b"end round\n");
    out
}

fn push_number(out: &mut Vec<u8>, number: u32) {
    let (mut digits, mut at, mut left) = ([0u8; 10], 10, number);
    loop {
        at -= 1;
        digits[at] = b'0' + (left % 10) as u8;
        left /= 10;
        if left == 0 {
            break;
        }
    }
    out.extend_from_slice(&digits[at..]);
}

#[inline(never)]
fn round_text_by_append(round: &Round, codes: &[&str]) -> Vec<u8> {
    let mut out = Vec::with_capacity(round.rows.len() * 39 + 64);
    out.extend_from_slice(b"round ");
    push_number(&mut out, round.number);
    out.extend_from_slice(b" seated ");
    push_number(&mut out, round.rows.len() as u32);
    out.extend_from_slice(b"\n");
    for row in &round.rows {
        out.extend_from_slice(b"allot ");
        push_number(&mut out, row.id);
        out.extend_from_slice(b" ");
        out.extend_from_slice(codes[row.programme].as_bytes());
        out.extend_from_slice(b" ");
        out.extend_from_slice(STEPS[row.step].as_bytes());
        out.extend_from_slice(b"\n");
    }
    out.extend_from_slice(b"end round\n");
    out
}

fn main() {
    let way = std::env::args().nth(1).expect("write or append");
    let mut text = String::new();
    std::io::stdin().read_to_string(&mut text).unwrap();
    let mut codes = Vec::new();
    let round = read(&text, &mut codes);
    let made = if way == "write" { round_text_by_write(&round, &codes) } else { round_text_by_append(&round, &codes) };
    std::process::exit(i32::from(made != text.as_bytes()));
}
