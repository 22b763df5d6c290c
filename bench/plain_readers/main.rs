// A plain Rust reader of season bundles with the standard library and no proof, against which the command `check` is measured.
//
// It makes the same checks and keeps the same facts, but does not report the first fault by kind. The plain office reads with it.
use std::collections::{HashMap, HashSet};
use std::io::Read;

/// A line without its end and the empty fields there.
fn without_end(line: &str) -> &str {
    line.trim_end_matches('\r').trim_end_matches(',')
}

fn fields(line: &str) -> Vec<&str> {
    let line = without_end(line);
    if line.is_empty() { Vec::new() } else { line.split(',').collect() }
}

fn number(text: &str, low: u32, high: u32) -> Option<u32> {
    if text.is_empty() || !text.bytes().all(|b| b.is_ascii_digit()) || (text.len() > 1 && text.starts_with('0')) {
        return None;
    }
    text.parse().ok().filter(|n| (low..=high).contains(n))
}

fn is_code(text: &str) -> bool {
    (1..=16).contains(&text.len()) && text.bytes().all(|b| b.is_ascii_alphanumeric() || b == b'-')
}

fn is_token(text: &str) -> bool {
    (8..=32).contains(&text.len()) && text.bytes().all(|b| b.is_ascii_alphanumeric())
}

fn traits(text: &str) -> Option<u8> {
    if text == "-" {
        return Some(0);
    }
    let mut set = 0;
    let mut last = None;
    for letter in text.bytes() {
        let place = b"WDXSFL".iter().position(|b| *b == letter)?;
        if last.is_some_and(|before| before >= place) {
            return None;
        }
        last = Some(place);
        set |= 1 << place;
    }
    if set == 0 { None } else { Some(set) }
}

/// Cuts the body of the section with this title off the text.
fn section<'a>(text: &'a str, title: &str) -> Option<(&'a str, &'a str)> {
    let (line, rest) = text.split_once('\n')?;
    if line.trim_end_matches(['\r', ',']) != title {
        return None;
    }
    let end = if rest.starts_with('[') { 0 } else { rest.find("\n[").map_or(rest.len(), |at| at + 1) };
    Some((&rest[..end], &rest[end..]))
}

fn rows<'a>(body: &'a str, header: &str) -> Option<impl Iterator<Item = Vec<&'a str>>> {
    let mut rows = body.lines().map(fields).filter(|row| !row.is_empty());
    if rows.next()? != fields(header) {
        return None;
    }
    Some(rows)
}

#[derive(Clone, Copy)]
pub struct Person {
    #[allow(dead_code)]
    pub category: u8,
    #[allow(dead_code)]
    pub traits: u8,
    pub places: [(u32, bool); 4],
}

pub struct Register<'a> {
    pub people: HashMap<u32, (usize, Person)>,
    tokens: HashSet<&'a str>,
}

fn register(body: &str) -> Option<Register<'_>> {
    let mut people = HashMap::new();
    let mut tokens = HashSet::new();
    let mut taken: [HashSet<u32>; 4] = Default::default();
    for row in rows(body, "id,category,traits,token,m1,m2,m3,m4")? {
        if row.len() > 8 || people.len() >= 250_000 {
            return None;
        }
        let id = number(row[0], 1, 999_999_999)?;
        let category = match *row.get(1)? {
            "GEN" => 0,
            "EWS" | "GEN-EWS" => 1,
            "OBC" | "OBC-NCL" => 2,
            "SC" => 3,
            "ST" => 4,
            _ => return None,
        };
        let traits = traits(row.get(2)?)?;
        let token = *row.get(3)?;
        let mut places = [(0, false); 4];
        for list in 0..4 {
            let text = row.get(4 + list).copied().unwrap_or("");
            if text.is_empty() {
                continue;
            }
            let relaxed = text.ends_with('R');
            let number = number(text.strip_suffix('R').unwrap_or(text), 1, 9_999_999)?;
            if (relaxed && category == 0) || !taken[list].insert(number) {
                return None;
            }
            places[list] = (number, relaxed);
        }
        if !is_token(token) || !tokens.insert(token) {
            return None;
        }
        let at = people.len();
        if people.insert(id, (at, Person { category, traits, places })).is_some() {
            return None;
        }
    }
    Some(Register { people, tokens })
}

pub struct Programme<'a> {
    pub number: u16,
    pub institute: &'a str,
    pub list: u32,
    /// the seats of each category, and how many of them each trait protects
    #[allow(dead_code)]
    pub steps: [(u32, [u32; 6]); 5],
}

fn matrix(body: &str) -> Option<HashMap<&str, Programme<'_>>> {
    let mut programmes: HashMap<&str, Programme> = HashMap::new();
    let mut steps = HashSet::new();
    let mut total = 0;
    for row in rows(body, "programme,institute,list,step,seats,W,D,X,S,F,L")? {
        if row.len() > 11 || !is_code(row[0]) || !is_code(row.get(1)?) {
            return None;
        }
        let step = match *row.get(3)? {
            "OPEN" => 0u8,
            "EWS" | "GEN-EWS" => 1,
            "OBC" | "OBC-NCL" => 2,
            "SC" => 3,
            "ST" => 4,
            _ => return None,
        };
        let seats = number(row.get(4)?, 0, 4000)?;
        let mut protections = [0; 6];
        for (n, text) in row.iter().skip(5).enumerate() {
            protections[n] = if text.is_empty() { 0 } else { number(text, 0, 4000)? };
        }
        total += seats;
        if protections.iter().sum::<u32>() > seats || total > 1_000_000 {
            return None;
        }
        if !steps.insert((row[0], step)) {
            return None;
        }
        let list = number(row[2], 1, 4)?;
        let count = programmes.len();
        if count >= 2_000 && !programmes.contains_key(row[0]) {
            return None;
        }
        let new = Programme { number: count as u16, institute: row[1], list, steps: Default::default() };
        let known = programmes.entry(row[0]).or_insert(new);
        if known.institute != row[1] || known.list != list {
            return None;
        }
        known.steps[usize::from(step)] = (seats, protections);
    }
    Some(programmes)
}

pub struct Choices {
    pub programmes: Vec<u16>,
    pub ranges: Vec<Option<(usize, usize)>>,
}

fn choices(body: &str, register: &Register, programmes: &HashMap<&str, Programme>) -> Option<Choices> {
    let mut choices = Choices { programmes: Vec::new(), ranges: vec![None; register.people.len()] };
    let mut named_last = vec![0; programmes.len()];
    let mut lines = body.lines().filter(|line| !without_end(line).is_empty());
    if without_end(lines.next()?) != "candidate,programmes" {
        return None;
    }
    for line in lines {
        let mut fields = without_end(line).split(',');
        let id = number(fields.next()?, 1, 999_999_999)?;
        let (at, person) = register.people.get(&id)?;
        let start = choices.programmes.len();
        for code in fields {
            let programme = programmes.get(code)?;
            let last = &mut named_last[usize::from(programme.number)];
            if person.places[programme.list as usize - 1].0 == 0 || *last == id {
                return None;
            }
            *last = id;
            choices.programmes.push(programme.number);
        }
        let end = choices.programmes.len();
        if end - start > 1_000 || end > 5_000_000 || choices.ranges[*at].replace((start, end)).is_some() {
            return None;
        }
    }
    Some(choices)
}

#[derive(Clone, Copy)]
#[allow(dead_code)]
pub enum By {
    Clerk,
    Nobody,
    Candidate(u32),
}

#[derive(Clone, Copy)]
#[allow(dead_code)]
pub enum Choice {
    Freeze,
    Float,
    Slide,
    Withdraw,
}

#[allow(dead_code)]
pub enum Ask<'a> {
    Answer { cand: u32, window: u16, turn: u16, choice: Choice },
    Cut { window: u16 },
    Raise { window: u16, prog: &'a str, step: u8, seats: u16 },
    Seat { cand: u32 },
    Why { cand: u32, prog: &'a str },
    List { round: u16, prog: &'a str },
    Round { round: u16 },
    Choices { cand: u32 },
    State,
}

fn window(text: &str) -> Option<u16> {
    number(text, 0, 65_535).map(|n| n as u16)
}

fn code(text: &str) -> Option<&str> {
    is_code(text).then_some(text)
}

fn choice(text: &str) -> Option<Choice> {
    match text {
        "freeze" => Some(Choice::Freeze),
        "float" => Some(Choice::Float),
        "slide" => Some(Choice::Slide),
        "withdraw" => Some(Choice::Withdraw),
        _ => None,
    }
}

fn step(text: &str) -> Option<u8> {
    match text {
        "OPEN" => Some(0),
        "EWS" | "GEN-EWS" => Some(1),
        "OBC" | "OBC-NCL" => Some(2),
        "SC" => Some(3),
        "ST" => Some(4),
        _ => None,
    }
}

fn ask<'a>(row: &[&'a str]) -> Option<Ask<'a>> {
    match *row {
        ["answer", _, id, at, turn, text] => Some(Ask::Answer {
            cand: number(id, 1, 999_999_999)?,
            window: window(at)?,
            turn: number(turn, 1, 65_535)? as u16,
            choice: choice(text)?,
        }),
        ["cut", _, at] => Some(Ask::Cut { window: window(at)? }),
        ["seat", _, id] => Some(Ask::Seat { cand: number(id, 1, 999_999_999)? }),
        ["why", _, id, prog] => Some(Ask::Why { cand: number(id, 1, 999_999_999)?, prog: code(prog)? }),
        ["list", _, at, prog] => Some(Ask::List { round: window(at)?, prog: code(prog)? }),
        ["round", _, at] => Some(Ask::Round { round: window(at)? }),
        ["choices", _, id] => Some(Ask::Choices { cand: number(id, 1, 999_999_999)? }),
        ["state", _] => Some(Ask::State),
        ["raise", _, at, prog, kind, seats] => Some(Ask::Raise {
            window: window(at)?,
            prog: code(prog)?,
            step: step(kind)?,
            seats: number(seats, 1, 4_000)? as u16,
        }),
        _ => None,
    }
}

fn by(text: &str) -> Option<By> {
    match text {
        "clerk" => Some(By::Clerk),
        "nobody" => Some(By::Nobody),
        id => number(id, 1, 999_999_999).map(By::Candidate),
    }
}

/// Each row is a request.
fn requests(body: &str) -> Option<Vec<(By, Ask<'_>)>> {
    let mut found = Vec::new();
    let mut row: Vec<&str> = Vec::new();
    for line in body.lines().map(without_end).filter(|line| !line.is_empty()) {
        row.clear();
        row.extend(line.split(','));
        found.push((by(row.get(1)?)?, ask(&row)?));
    }
    Some(found)
}

/// A season bundle of the first version, and its requests.
pub struct Bundle<'a> {
    pub rounds: u32,
    pub register: Register<'a>,
    pub programmes: HashMap<&'a str, Programme<'a>>,
    pub choices: Choices,
    #[allow(dead_code)]
    pub script: Vec<(By, Ask<'a>)>,
}

pub fn read(text: &str) -> Option<Bundle<'_>> {
    let text = text.strip_prefix('\u{feff}').unwrap_or(text);
    let (first, rest) = text.split_once('\n')?;
    if first.trim_end_matches(['\r', ',']) != "office bundle 1" {
        return None;
    }
    let (season, rest) = section(rest, "[season]")?;
    let (people, rest) = section(rest, "[register]")?;
    let (seats, rest) = section(rest, "[matrix]")?;
    let (wanted, rest) = section(rest, "[choices]")?;
    let (script, rest) = if rest.is_empty() { ("", "") } else { section(rest, "[requests]")? };
    if !rest.is_empty() {
        return None;
    }
    let (mut rounds, mut clerk) = (None, None);
    for row in season.lines().map(fields).filter(|row| !row.is_empty()) {
        match row[..] {
            ["rounds", text] if rounds.is_none() => rounds = Some(number(text, 1, 10)?),
            ["clerk", text] if clerk.is_none() && is_token(text) => clerk = Some(text),
            _ => return None,
        }
    }
    let register = register(people)?;
    if register.tokens.contains(clerk?) {
        return None;
    }
    let programmes = matrix(seats)?;
    let choices = choices(wanted, &register, &programmes)?;
    Some(Bundle { rounds: rounds?, register, programmes, choices, script: requests(script)? })
}

fn check(text: &str) -> Option<String> {
    let read = read(text)?;
    let count: usize = read.choices.ranges.iter().flatten().map(|(start, end)| end - start).sum();
    Some(format!(
        "bundle candidates {} programmes {} choices {count} rounds {}",
        read.register.people.len(),
        read.programmes.len(),
        read.rounds
    ))
}

fn main() {
    let mut text = String::new();
    std::io::stdin().read_to_string(&mut text).expect("text");
    println!("{}", check(&text).expect("a bundle without faults"));
}
