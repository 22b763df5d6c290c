// A plain Rust server of a season with the standard library, against which the command `serve` is measured.
//
//     plain_server WORKERS PORT BUNDLE ROUND STORE [grouped]      STORE is `memory` or the name of a file
//
// It has a thread for each clone of the listener, cuts heads by hand, and gives the same replies from the same arrays under a mutex.
// It makes no round: it reads the first one from the office's own text.
// It answers how far the office is, seats, and the answers of window 1. Over a file it keeps each answer, with a sync, before the reply.
// With `grouped` one sync is for all who wait: an answer is appended, and its reply, or one that could have seen it, is written after a sync that began later.
use std::collections::HashMap;
use std::fs::{File, OpenOptions};
use std::io::{Read, Write};
use std::net::{Ipv4Addr, TcpListener, TcpStream};
use std::sync::{Arc, Condvar, Mutex};
use std::time::Duration;

const MOST_MESSAGES: u32 = 100;
const MOST_HEAD: usize = 8_192;
const MOST_BODY: usize = 4_096;
const MOST_TURNS: u32 = 16;
const CHOICES: [&str; 4] = ["freeze", "float", "slide", "withdraw"];

/// What never changes: who is there, and the seats of round 1.
struct Season {
    rounds: u32,
    clerk: String,
    places: HashMap<u32, usize>,
    tokens: HashMap<String, u32>,
    codes: Vec<String>,
    seats: Vec<Option<(usize, String)>>,
}

/// What was accepted of each candidate in window 1, by place: the choices of the turns from 1 on. `appended` counts the lines of the log.
struct Office {
    turns: Vec<Vec<usize>>,
    log: Option<Arc<File>>,
    is_grouped: bool,
    appended: u64,
}

/// How many lines of the log the disk has, and whether somebody syncs now.
#[derive(Default)]
struct Synced {
    lines: u64,
    is_syncing: bool,
    has_failed: bool,
}

/// The syncs of a grouped server: the first who waits syncs for all whose lines are there by then.
#[derive(Default)]
struct Syncs {
    synced: Mutex<Synced>,
    ended: Condvar,
}

impl Syncs {
    /// Returns once the disk has so many lines, and whether it has.
    fn wait(&self, office: &Mutex<Office>, wanted: u64) -> bool {
        let mut synced = self.synced.lock().unwrap();
        while synced.lines < wanted && !synced.has_failed {
            if synced.is_syncing {
                synced = self.ended.wait(synced).unwrap();
                continue;
            }
            synced.is_syncing = true;
            drop(synced);
            let (log, lines) = {
                let office = office.lock().unwrap();
                (office.log.clone(), office.appended)
            };
            let is_done = log.is_some_and(|log| log.sync_data().is_ok());
            synced = self.synced.lock().unwrap();
            synced.is_syncing = false;
            if is_done {
                synced.lines = lines;
            } else {
                synced.has_failed = true;
            }
            self.ended.notify_all();
        }
        synced.lines >= wanted
    }
}

/// What all connections share.
struct Shared {
    season: Season,
    office: Mutex<Office>,
    syncs: Syncs,
}

fn sections(text: &str) -> HashMap<&str, Vec<&str>> {
    let mut found: HashMap<&str, Vec<&str>> = HashMap::new();
    let mut name = "";
    for line in text.lines() {
        if line.starts_with('[') {
            name = line;
        }
        found.entry(name).or_default().push(line);
    }
    found
}

fn read_season(bundle: &str, round: &str) -> Option<Season> {
    let parts = sections(bundle);
    let keys: HashMap<&str, &str> = parts["[season]"].iter().filter_map(|line| line.split_once(',')).collect();
    let (mut places, mut tokens, mut codes, mut numbers) = (HashMap::new(), HashMap::new(), Vec::new(), HashMap::new());
    for line in &parts["[register]"][2..] {
        let fields: Vec<&str> = line.split(',').collect();
        let id = fields[0].parse().ok()?;
        places.insert(id, places.len());
        tokens.insert(fields[3].to_string(), id);
    }
    for line in &parts["[matrix]"][2..] {
        let code = line.split(',').next()?;
        numbers.entry(code).or_insert_with(|| {
            codes.push(code.to_string());
            codes.len() - 1
        });
    }
    let mut seats = vec![None; places.len()];
    for line in round.lines().filter(|line| line.starts_with("allot ")) {
        let fields: Vec<&str> = line.split(' ').collect();
        seats[*places.get(&fields[1].parse().ok()?)?] = Some((*numbers.get(fields[2])?, fields[3].to_string()));
    }
    Some(Season { rounds: keys.get("rounds")?.parse().ok()?, clerk: keys.get("clerk")?.to_string(), places, tokens, codes, seats })
}

#[derive(PartialEq)]
enum By {
    Clerk,
    Candidate(u32),
    Nobody,
}

impl Season {
    fn by(&self, token: Option<&str>) -> By {
        match token {
            Some(token) if token == self.clerk => By::Clerk,
            Some(token) => self.tokens.get(token).map_or(By::Nobody, |id| By::Candidate(*id)),
            None => By::Nobody,
        }
    }
}

type Reply = (u16, String);

/// The body of a refusal: its members, and what it carries, in the order of their keys.
fn refused(status: u16, number: u32, name: &str, carried: Option<(&str, String)>) -> Reply {
    let mut members = vec![("name", format!("\"{name}\"")), ("refused", number.to_string()), ("reply", "\"refused\"".to_string())];
    members.extend(carried);
    members.sort();
    let members: Vec<String> = members.iter().map(|(key, value)| format!("\"{key}\":{value}")).collect();
    (status, format!("{{{}}}", members.join(",")))
}

fn state(season: &Season) -> Reply {
    (200, format!("{{\"now\":1,\"published\":1,\"reply\":\"state\",\"rounds\":{}}}", season.rounds))
}

fn seat(season: &Season, office: &Office, by: &By, cand: u32) -> Reply {
    let Some(&place) = season.places.get(&cand) else {
        return refused(404, 1, "UnknownCandidate", None);
    };
    if *by != By::Clerk && *by != By::Candidate(cand) {
        return refused(403, 3, "Denied", Some(("rule", "3".to_string())));
    }
    let held = &season.seats[place];
    let standing = match (office.turns[place].last(), held) {
        (Some(3), _) => "withdrawn",
        (Some(&choice), _) => CHOICES[choice],
        (None, Some(_)) => "offered",
        (None, None) => "waiting",
    };
    match held {
        Some((code, step)) if standing != "withdrawn" => {
            let code = &season.codes[*code];
            (200, format!("{{\"cand\":{cand},\"programme\":\"{code}\",\"reply\":\"seat\",\"round\":1,\"standing\":\"{standing}\",\"step\":\"{step}\"}}"))
        }
        _ => (200, format!("{{\"cand\":{cand},\"programme\":null,\"reply\":\"seat\",\"round\":1,\"standing\":\"{standing}\",\"step\":null}}")),
    }
}

fn noted(cand: u32, turn: u32, choice: usize) -> Reply {
    (200, format!("{{\"cand\":{cand},\"choice\":\"{}\",\"reply\":\"noted\",\"turn\":{turn},\"window\":1}}", CHOICES[choice]))
}

fn answer(season: &Season, office: &mut Office, by: &By, cand: u32, window: u32, turn: u32, choice: usize) -> Reply {
    let Some(&place) = season.places.get(&cand) else {
        return refused(404, 1, "UnknownCandidate", None);
    };
    if *by != By::Candidate(cand) {
        return refused(403, 3, "Denied", Some(("rule", "1".to_string())));
    }
    let last = office.turns[place].len() as u32;
    if window == 1 && (1..=last).contains(&turn) {
        let kept = office.turns[place][turn as usize - 1];
        if kept == choice {
            return noted(cand, turn, choice);
        }
        return refused(409, 5, "TurnUsed", Some(("kept", format!("\"{}\"", CHOICES[kept]))));
    }
    if window != 1 {
        let (number, name) = if window < 1 { (6, "Late") } else { (7, "Ahead") };
        return refused(409, number, name, Some(("now", "1".to_string())));
    }
    if turn != last + 1 {
        return refused(409, 8, "Gap", Some(("last", last.to_string())));
    }
    if office.turns[place].last() == Some(&3) {
        return refused(409, 9, "Gone", Some(("how", "\"withdrawn\"".to_string())));
    }
    if season.seats[place].is_none() && choice != 3 {
        return refused(409, 10, "NoSeat", None);
    }
    if turn > MOST_TURNS && choice != 3 {
        return refused(409, 12, "TooManyTurns", None);
    }
    if let Some(log) = &office.log {
        let line = format!("{window},{cand},{turn},{choice}\n");
        if (&**log).write_all(line.as_bytes()).is_err() || (!office.is_grouped && log.sync_data().is_err()) {
            return failed();
        }
        office.appended += 1;
    }
    office.turns[place].push(choice);
    noted(cand, turn, choice)
}

fn failed() -> Reply {
    (503, "{\"fault\":\"keeper\"}".to_string())
}

/// The number or the text of a key in a body of plain JSON, as the office's clients send it.
fn member<'a>(body: &'a str, key: &str) -> Option<&'a str> {
    let (_, rest) = body.split_once(&format!("\"{key}\":"))?;
    let rest = rest.trim_start();
    match rest.strip_prefix('"') {
        Some(text) => Some(text.split_once('"')?.0),
        None => Some(&rest[..rest.find(|c: char| !c.is_ascii_digit())?]),
    }
}

fn number(body: &str, key: &str) -> Option<u32> {
    member(body, key)?.parse().ok()
}

/// What a message comes to, once the disk has all that its reply may tell of.
fn asked(shared: &Shared, method: &str, path: &str, token: Option<&str>, body: &str) -> Reply {
    let (reply, seen) = answered(&shared.season, &shared.office, method, path, token, body);
    if seen == 0 || shared.syncs.wait(&shared.office, seen) { reply } else { failed() }
}

/// The reply to a message, and how many lines of the log it may tell of and the disk may lack.
fn answered(season: &Season, office: &Mutex<Office>, method: &str, path: &str, token: Option<&str>, body: &str) -> (Reply, u64) {
    let by = season.by(token);
    let mut seen = 0;
    let mut turn = || {
        let held = office.lock().unwrap();
        if held.is_grouped {
            seen = held.appended;
        }
        held
    };
    let pieces: Vec<&str> = path.split('?').next().unwrap_or("").split('/').collect();
    let reply = match (method, &pieces[..]) {
        ("GET", ["", "v1", "state"]) => {
            let _turn = turn();
            state(season)
        }
        ("GET", ["", "v1", "seat", cand]) => match cand.parse() {
            Ok(cand) => seat(season, &turn(), &by, cand),
            Err(_) => (404, String::new()),
        },
        ("POST", ["", "v1", "answer"]) => {
            let choice = member(body, "choice").and_then(|name| CHOICES.iter().position(|it| *it == name));
            match (number(body, "cand"), number(body, "window"), number(body, "turn"), choice) {
                (Some(cand), Some(window), Some(number), Some(choice)) => {
                    let mut held = turn();
                    let reply = answer(season, &mut held, &by, cand, window, number, choice);
                    seen = if held.is_grouped { held.appended } else { 0 };
                    reply
                }
                _ => (400, String::new()),
            }
        }
        _ => (404, String::new()),
    };
    (reply, seen)
}

fn phrase(status: u16) -> &'static str {
    match status {
        200 => "OK",
        403 => "Forbidden",
        404 => "Not Found",
        409 => "Conflict",
        413 => "Payload Too Large",
        431 => "Request Header Fields Too Large",
        503 => "Service Unavailable",
        _ => "Bad Request",
    }
}

fn reply_bytes(out: &mut Vec<u8>, reply: &Reply, closes: bool) {
    let (status, body) = reply;
    out.clear();
    let kind = if body.is_empty() { "" } else { "Content-Type: application/json\r\n" };
    let close = if closes { "Connection: close\r\n" } else { "" };
    let _ = write!(out, "HTTP/1.1 {status} {}\r\n{kind}Content-Length: {}\r\n{close}\r\n{body}", phrase(*status), body.len());
}

/// The parts of a head: method, path, token, length of the body, and whether the connection is to end.
fn cut_head(head: &str) -> Option<(&str, &str, Option<&str>, usize, bool)> {
    let mut lines = head.split("\r\n");
    let mut words = lines.next()?.split(' ');
    let (method, path) = (words.next()?, words.next()?);
    let (mut token, mut length, mut closes) = (None, 0, words.next()? == "HTTP/1.0");
    for (name, value) in lines.filter_map(|line| line.split_once(':')) {
        let value = value.trim();
        if name.eq_ignore_ascii_case("x-office-token") {
            token = token.or(Some(value));
        } else if name.eq_ignore_ascii_case("content-length") {
            length = value.parse().ok()?;
        } else if name.eq_ignore_ascii_case("connection") {
            closes |= value.split(',').any(|it| it.trim().eq_ignore_ascii_case("close"));
        }
    }
    Some((method, path, token, length, closes))
}

/// Where the head of the held bytes ends, if it does.
fn head_end(held: &[u8]) -> Option<usize> {
    held.windows(4).position(|it| it == b"\r\n\r\n")
}

/// Answers the message that the held bytes begin with: how many bytes it took, and whether the connection ends. None where more is wanted.
fn answer_held(shared: &Shared, held: &[u8], last: bool, out: &mut Vec<u8>) -> Option<(usize, bool)> {
    let Some(end) = head_end(held) else {
        if held.len() < MOST_HEAD {
            return None;
        }
        reply_bytes(out, &(431, String::new()), true);
        return Some((held.len(), true));
    };
    let parts = std::str::from_utf8(&held[..end]).ok().and_then(cut_head);
    let Some((method, path, token, length, closes)) = parts.filter(|it| it.3 <= MOST_BODY) else {
        reply_bytes(out, &(400, String::new()), true);
        return Some((held.len(), true));
    };
    let body = held.get(end + 4..end + 4 + length)?;
    let reply = asked(shared, method, path, token, std::str::from_utf8(body).unwrap_or(""));
    reply_bytes(out, &reply, closes || last);
    Some((end + 4 + length, closes || last))
}

fn talk(shared: &Shared, mut stream: TcpStream) -> std::io::Result<()> {
    stream.set_nodelay(true)?;
    stream.set_read_timeout(Some(Duration::from_secs(30)))?;
    stream.set_write_timeout(Some(Duration::from_secs(30)))?;
    let (mut held, mut len, mut out) = (vec![0; MOST_HEAD + MOST_BODY], 0, Vec::new());
    for at in 1..=MOST_MESSAGES {
        let (taken, ends) = loop {
            if let Some(answered) = answer_held(shared, &held[..len], at == MOST_MESSAGES, &mut out) {
                break answered;
            }
            match stream.read(&mut held[len..])? {
                0 => return Ok(()),
                count => len += count,
            }
        };
        stream.write_all(&out)?;
        held.copy_within(taken..len, 0);
        len -= taken;
        if ends {
            return Ok(());
        }
    }
    Ok(())
}

fn main() {
    let words: Vec<String> = std::env::args().collect();
    let (workers, port): (usize, u16) = (words[1].parse().unwrap(), words[2].parse().unwrap());
    let text = |path: &str| std::fs::read_to_string(path).unwrap();
    let season = read_season(&text(&words[3]), &text(&words[4])).unwrap();
    let log = (words[5] != "memory").then(|| Arc::new(OpenOptions::new().create(true).append(true).open(&words[5]).unwrap()));
    let is_grouped = log.is_some() && words.get(6).is_some_and(|it| it == "grouped");
    let office = Mutex::new(Office { turns: vec![Vec::new(); season.seats.len()], log, is_grouped, appended: 0 });
    let shared = Shared { season, office, syncs: Syncs::default() };
    let listener = TcpListener::bind((Ipv4Addr::LOCALHOST, port)).unwrap();
    std::thread::scope(|scope| {
        for _ in 0..workers {
            let listener = listener.try_clone().unwrap();
            let shared = &shared;
            scope.spawn(move || {
                for stream in listener.incoming().flatten() {
                    let _ = talk(shared, stream);
                }
            });
        }
    });
}
