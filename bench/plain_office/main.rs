//! A plain Rust office with the standard library and no proof, against which the command `run` is measured.
//!
//! It reads a season bundle of the first version with its requests, answers them one after another, and writes each reply.
//! It makes the rounds by the same algorithm as the product.
//! It keeps the same facts: the rows of answers and rounds, and the lists of every round with their certificates.
//! It answers `answer`, `cut`, `seat` and `state`, which the measured scripts have. Other requests end it.
#![allow(dead_code)]

#[path = "../plain_offers/main.rs"]
mod offers;
#[path = "../plain_readers/main.rs"]
mod readers;

use offers::{Category, Offered, Person, Place, ProgrammeState, Seats, StepState};
use readers::{Ask, Bundle, By, Choice};
use std::collections::HashMap;
use std::io::{BufWriter, Read, Write};

const STEPS: [&str; 6] = ["OPEN", "EWS", "OBC", "SC", "ST", "D"];
const CATEGORIES: [Category; 5] = [Category::Gen, Category::Ews, Category::Obc, Category::Sc, Category::St];
const NOBODY: u32 = u32::MAX;
const MOST_TURNS: u16 = 16;

#[derive(Clone, Copy, PartialEq, Eq)]
enum Standing {
    Waiting,
    Offered,
    Freeze,
    Float,
    Slide,
    Withdrawn,
    NoShow,
}

impl Standing {
    fn name(self) -> &'static str {
        ["waiting", "offered", "freeze", "float", "slide", "withdrawn", "noshow"][self as usize]
    }

    fn after(choice: Choice) -> Standing {
        match choice {
            Choice::Freeze => Standing::Freeze,
            Choice::Float => Standing::Float,
            Choice::Slide => Standing::Slide,
            Choice::Withdraw => Standing::Withdrawn,
        }
    }

    fn stays(self) -> bool {
        matches!(self, Standing::Freeze | Standing::Float | Standing::Slide)
    }

    fn shows_seat(self) -> bool {
        self.stays() || self == Standing::Offered
    }
}

type Seat = Option<(u16, u8)>;

/// An answer that was kept, and where the one before it of the same candidate is.
struct AnswerRow {
    cand: u32,
    window: u16,
    turn: u16,
    choice: Choice,
    before: u32,
}

/// Whom a step admits, each with the letter of the position.
struct StepList {
    seats: u16,
    candidates: u32,
    admitted: Vec<(u32, u8)>,
}

struct Programme {
    code: String,
    institute: u16,
    list: u8,
    steps: [Seats; 5],
}

struct Office {
    rounds: u16,
    programmes: Vec<Programme>,
    people: Vec<Person>,
    places: HashMap<u32, u32>,
    by_id: Vec<u32>,
    choices: readers::Choices,
    left: Vec<Standing>,
    standing: Vec<Standing>,
    turns: Vec<u16>,
    last_answer: Vec<u32>,
    seats: Vec<Seat>,
    answers: Vec<AnswerRow>,
    window: u16,
    published: Vec<Vec<[StepList; 6]>>,
    allots: Vec<(u16, u32, u16, u8)>,
}

fn place((number, relaxed): (u32, bool)) -> Place {
    match (number, relaxed) {
        (0, _) => Place::Absent,
        (n, true) => Place::Relaxed(n),
        (n, false) => Place::Common(n),
    }
}

fn programmes_of(read: &Bundle<'_>) -> Vec<Programme> {
    let mut institutes = HashMap::new();
    let mut ordered: Vec<_> = read.programmes.iter().collect();
    ordered.sort_by_key(|(_, it)| it.number);
    ordered
        .into_iter()
        .map(|(code, it)| {
            let count = institutes.len() as u16;
            let institute = *institutes.entry(it.institute).or_insert(count);
            let steps = it.steps.map(|(seats, counts)| (seats as usize, counts.map(|n| n as u16)));
            Programme { code: (*code).to_owned(), institute, list: it.list as u8, steps }
        })
        .collect()
}

fn people_of(read: &Bundle<'_>) -> Vec<Person> {
    let nobody = Person { id: 0, category: Category::Gen, traits: 0, places: [Place::Absent; 4] };
    let mut people = vec![nobody; read.register.people.len()];
    for (id, (at, it)) in &read.register.people {
        let category = CATEGORIES[usize::from(it.category)];
        people[*at] = Person { id: *id, category, traits: it.traits, places: it.places.map(place) };
    }
    people
}

/// For each of the people the position that is filled, `-` for none: each in turn takes one where the others can give way.
fn letters(people: &[Person], counts: [u16; 6]) -> Vec<(u32, u8)> {
    fn moved(who: usize, people: &[Person], on: &mut [Option<usize>], room: &mut [Vec<usize>; 6], counts: &[u16; 6], seen: &mut u8) -> bool {
        for t in (0..6).filter(|t| people[who].traits >> t & 1 == 1) {
            if *seen >> t & 1 == 1 || counts[t] == 0 {
                continue;
            }
            *seen |= 1 << t;
            if room[t].len() < usize::from(counts[t]) {
                room[t].push(who);
                on[who] = Some(t);
                return true;
            }
            for at in 0..room[t].len() {
                let other = room[t][at];
                if moved(other, people, on, room, counts, seen) {
                    room[t][at] = who;
                    on[who] = Some(t);
                    return true;
                }
            }
        }
        false
    }
    let mut on = vec![None; people.len()];
    let mut room: [Vec<usize>; 6] = Default::default();
    for who in (0..people.len()).filter(|at| people[*at].traits != 0) {
        moved(who, people, &mut on, &mut room, &counts, &mut 0);
    }
    people.iter().zip(on).map(|(it, t)| (it.id, t.map_or(b'-', |t| b"WDXSFL"[t]))).collect()
}

/// The lists of a programme, from the numbers of those who stood for it by category, and of those among them with common places.
fn lists_of(state: &ProgrammeState, programme: &Programme, tally: &[[u32; 5]; 2]) -> [StepList; 6] {
    let mut left = *tally;
    let mut list = |kind: usize, held: &[Person], seats: usize, counts: [u16; 6]| {
        let candidates = match kind {
            0 | 5 => left[1].iter().sum(),
            _ => left[0][kind],
        };
        for it in held {
            left[0][it.category as usize] -= 1;
            left[1][it.category as usize] -= u32::from(it.is_common(programme.list));
        }
        StepList { seats: seats as u16, candidates, admitted: letters(held, counts) }
    };
    let steps = &programme.steps;
    let own = |at: usize, step: &StepState| (at, step.seats, steps[at].1);
    let mut of = |(kind, seats, counts): (usize, usize, [u16; 6]), held: &[Person]| list(kind, held, seats, counts);
    [
        of(own(0, &state.open), &state.open.held),
        of(own(1, &state.ews), &state.ews.held),
        of(own(2, &state.obc), &state.obc.held),
        of(own(3, &state.sc), &state.sc.held),
        of(own(4, &state.st), &state.st.held),
        of((5, state.empty(), [0; 6]), &state.dereserved),
    ]
}

impl Office {
    fn new(read: Bundle<'_>) -> Office {
        let (people, programmes) = (people_of(&read), programmes_of(&read));
        let count = people.len();
        let places = people.iter().enumerate().map(|(at, it)| (it.id, at as u32)).collect();
        let mut by_id: Vec<u32> = (0..count as u32).collect();
        by_id.sort_by_key(|at| people[*at as usize].id);
        Office {
            rounds: read.rounds as u16,
            programmes,
            people,
            places,
            by_id,
            choices: read.choices,
            left: vec![Standing::Waiting; count],
            standing: vec![Standing::Waiting; count],
            turns: vec![0; count],
            last_answer: vec![NOBODY; count],
            seats: vec![None; count],
            answers: Vec::new(),
            window: 0,
            published: Vec::new(),
            allots: Vec::new(),
        }
    }

    fn kept(&self, at: usize, window: u16, turn: u16) -> Option<Choice> {
        let mut row = self.last_answer[at];
        while row != NOBODY {
            let it = &self.answers[row as usize];
            if it.window == window && it.turn == turn {
                return Some(it.choice);
            }
            row = it.before;
        }
        None
    }

    fn answer(&mut self, out: &mut impl Write, by: By, (cand, window, turn, choice): (u32, u16, u16, Choice)) -> std::io::Result<()> {
        let Some(&at) = self.places.get(&cand) else {
            return writeln!(out, "refused 1 UnknownCandidate");
        };
        let at = at as usize;
        if !matches!(by, By::Candidate(id) if id == cand) {
            return writeln!(out, "refused 3 Denied rule 1");
        }
        let name = ["freeze", "float", "slide", "withdraw"][choice as usize];
        let known = if window < self.window || turn <= self.turns[at] { self.kept(at, window, turn) } else { None };
        match known {
            Some(kept) if kept as u8 != choice as u8 => {
                return writeln!(out, "refused 5 TurnUsed kept {}", ["freeze", "float", "slide", "withdraw"][kept as usize]);
            }
            Some(_) => return writeln!(out, "noted {cand} window {window} turn {turn} {name}"),
            None => {}
        }
        if window < self.window {
            return writeln!(out, "refused 6 Late now {}", self.window);
        }
        if window > self.window || window > self.rounds {
            return writeln!(out, "refused 7 Ahead now {}", self.window);
        }
        if turn != self.turns[at] + 1 {
            return writeln!(out, "refused 8 Gap last {}", self.turns[at]);
        }
        if matches!(self.standing[at], Standing::Withdrawn | Standing::NoShow) {
            return writeln!(out, "refused 9 Gone {}", self.standing[at].name());
        }
        let after = Standing::after(choice);
        if self.seats[at].is_none() && after != Standing::Withdrawn {
            return writeln!(out, "refused 10 NoSeat");
        }
        if matches!((self.left[at], after), (Standing::Slide | Standing::Freeze, Standing::Float) | (Standing::Freeze, Standing::Slide)) {
            return writeln!(out, "refused 11 Widening standing {}", self.left[at].name());
        }
        if turn > MOST_TURNS && after != Standing::Withdrawn {
            return writeln!(out, "refused 12 TooManyTurns");
        }
        self.answers.push(AnswerRow { cand, window, turn, choice, before: self.last_answer[at] });
        self.last_answer[at] = self.answers.len() as u32 - 1;
        self.turns[at] = turn;
        self.standing[at] = after;
        writeln!(out, "noted {cand} window {window} turn {turn} {name}")
    }

    /// The programmes that the candidate seeks next, as a part of all choices.
    fn seeks(&self, at: usize) -> (usize, usize) {
        let Some((start, end)) = self.choices.ranges[at] else { return (0, 0) };
        let own = &self.choices.programmes[start..end];
        let Some((held, _)) = self.seats[at] else {
            return if self.standing[at] == Standing::Waiting { (start, end) } else { (0, 0) };
        };
        let place = own.iter().position(|it| *it == held).expect("a seat is of the own list");
        match self.standing[at] {
            Standing::Waiting => (start, end),
            Standing::Freeze => (start + place, start + place + 1),
            Standing::Float | Standing::Slide => (start, start + place + 1),
            _ => (0, 0),
        }
    }

    fn is_sought(&self, at: usize, programme: u16) -> bool {
        match (self.standing[at], self.seats[at]) {
            (Standing::Slide, Some((held, _))) => {
                self.programmes[usize::from(programme)].institute == self.programmes[usize::from(held)].institute
            }
            _ => true,
        }
    }

    fn make_round(&mut self) {
        let mut states: Vec<ProgrammeState> = self.programmes.iter().map(|it| ProgrammeState::new(it.list, 1, &it.steps)).collect();
        let mut tallies = vec![[[0u32; 5]; 2]; self.programmes.len()];
        let mut next: Vec<(usize, usize)> = (0..self.people.len()).map(|at| self.seeks(at)).collect();
        for first in 0..self.people.len() {
            let mut who = first;
            while next[who].0 < next[who].1 {
                let programme = self.choices.programmes[next[who].0];
                next[who].0 += 1;
                if !self.is_sought(who, programme) {
                    continue;
                }
                let person = self.people[who];
                let tally = &mut tallies[usize::from(programme)];
                tally[0][person.category as usize] += 1;
                tally[1][person.category as usize] += u32::from(person.is_common(self.programmes[usize::from(programme)].list));
                match states[usize::from(programme)].offer(&person) {
                    Offered::Taken => break,
                    Offered::Displaced(gone) => who = self.places[&gone] as usize,
                    Offered::Refused => {}
                }
            }
        }
        let lists: Vec<[StepList; 6]> = states.iter().zip(&self.programmes).zip(&tallies).map(|((state, it), tally)| lists_of(state, it, tally)).collect();
        let mut seats = vec![None; self.people.len()];
        for (programme, steps) in lists.iter().enumerate() {
            for (kind, step) in steps.iter().enumerate() {
                for (id, _) in &step.admitted {
                    seats[self.places[id] as usize] = Some((programme as u16, kind as u8));
                }
            }
        }
        self.end_window(&seats);
        self.seats = seats;
        self.published.push(lists);
    }

    /// How the cut leaves everybody.
    fn end_window(&mut self, seats: &[Seat]) {
        for (at, seat) in seats.iter().enumerate() {
            self.left[at] = match self.standing[at] {
                Standing::Offered => Standing::NoShow,
                Standing::Waiting if seat.is_some() => Standing::Offered,
                other => other,
            };
            self.standing[at] = self.left[at];
            self.turns[at] = 0;
        }
    }

    fn cut(&mut self, out: &mut impl Write, by: By, window: u16) -> std::io::Result<()> {
        if !matches!(by, By::Clerk) {
            return writeln!(out, "refused 3 Denied rule 2");
        }
        if window > self.window || window == self.window && window > self.rounds {
            return writeln!(out, "refused 7 Ahead now {}", self.window);
        }
        if window == self.window {
            self.cut_now();
        }
        let number = window + 1;
        let first = self.allots.partition_point(|row| row.0 < number);
        let rows: Vec<_> = self.allots[first..].iter().take_while(|row| row.0 == number).collect();
        let (word, end) = if window < self.rounds {
            writeln!(out, "published {number} seated {}\nround {number} seated {}", rows.len(), rows.len())?;
            ("allot", "round")
        } else {
            writeln!(out, "final admitted {}\nfinal {}", rows.len(), rows.len())?;
            ("admit", "final")
        };
        for (_, cand, programme, kind) in rows {
            writeln!(out, "{word} {cand} {} {}", self.programmes[usize::from(*programme)].code, STEPS[usize::from(*kind)])?;
        }
        writeln!(out, "end {end}")
    }

    fn cut_now(&mut self) {
        let number = self.window + 1;
        if self.window < self.rounds {
            self.make_round();
        }
        let kept = |at: usize| self.window < self.rounds || self.standing[at].stays();
        let rows: Vec<_> = self
            .by_id
            .iter()
            .map(|at| *at as usize)
            .filter(|at| kept(*at))
            .filter_map(|at| self.seats[at].map(|(programme, kind)| (number, self.people[at].id, programme, kind)))
            .collect();
        self.allots.extend(rows);
        self.window += 1;
    }

    fn reply(&mut self, out: &mut impl Write, by: By, ask: Ask<'_>) -> std::io::Result<()> {
        match ask {
            Ask::Answer { cand, window, turn, choice } => self.answer(out, by, (cand, window, turn, choice)),
            Ask::Cut { window } => self.cut(out, by, window),
            Ask::State => writeln!(out, "state window {} rounds {} published {}", self.window, self.rounds, self.published.len()),
            Ask::Seat { cand } => match self.places.get(&cand) {
                None => writeln!(out, "refused 1 UnknownCandidate"),
                Some(_) if !matches!(by, By::Clerk) && !matches!(by, By::Candidate(id) if id == cand) => writeln!(out, "refused 3 Denied rule 3"),
                Some(&at) => {
                    let (standing, round) = (self.standing[at as usize], self.published.len());
                    match self.seats[at as usize].filter(|_| standing.shows_seat()) {
                        Some((programme, kind)) => {
                            let code = &self.programmes[usize::from(programme)].code;
                            writeln!(out, "seat {cand} round {round} {} {code} {}", standing.name(), STEPS[usize::from(kind)])
                        }
                        None => writeln!(out, "seat {cand} round {round} {} none", standing.name()),
                    }
                }
            },
            _ => panic!("the plain office answers no such request"),
        }
    }
}

fn main() {
    let mut text = String::new();
    std::io::stdin().read_to_string(&mut text).expect("text");
    let mut read = readers::read(&text).expect("a bundle without faults");
    let script = std::mem::take(&mut read.script);
    let mut office = Office::new(read);
    let mut out = BufWriter::with_capacity(1 << 16, std::io::stdout());
    for (by, ask) in script {
        office.reply(&mut out, by, ask).expect("a place for the replies");
    }
    out.flush().expect("a place for the replies");
}
