//! A programme that people come to one at a time, in plain Rust with the standard library and no proof.
//!
//! It has the same steps by the same algorithm as the product, and the same people in the same order.
//! It prints how many it admits.

const SETS: usize = 64;
const PEOPLE: u32 = 10_000;
const PLACES: u32 = 20_011;

#[derive(Clone, Copy, PartialEq, Eq)]
pub enum Category {
    Gen,
    Ews,
    Obc,
    Sc,
    St,
}

#[derive(Clone, Copy)]
#[allow(dead_code)]
pub enum Place {
    Absent,
    Common(u32),
    Relaxed(u32),
}

impl Place {
    fn number(self) -> Option<u32> {
        match self {
            Place::Absent => None,
            Place::Common(number) | Place::Relaxed(number) => Some(number),
        }
    }
}

#[derive(Clone, Copy)]
pub struct Person {
    pub id: u32,
    pub category: Category,
    pub traits: u8,
    pub places: [Place; 4],
}

impl Person {
    pub fn place(&self, list: u8) -> Place {
        self.places[usize::from(list - 1)]
    }

    pub fn is_common(&self, list: u8) -> bool {
        matches!(self.place(list), Place::Common(_))
    }
}

fn better(a: &Person, b: &Person, list: u8) -> bool {
    match (a.place(list).number(), b.place(list).number()) {
        (Some(m), Some(n)) => m < n,
        _ => false,
    }
}

fn is_within(traits: u8, set: u8) -> bool {
    traits & set == traits
}

enum Augment {
    Raised,
    Held(Option<u32>),
}

/// Persons who can all be placed on protected positions at once.
struct Matching {
    list: u8,
    members: Vec<Person>,
    spare: [u16; SETS],
}

impl Matching {
    fn new(counts: [u16; 6], list: u8) -> Matching {
        let mut spare = [0; SETS];
        for (set, left) in spare.iter_mut().enumerate() {
            *left = (0..6).filter(|t| set >> t & 1 == 1).map(|t| counts[t]).sum();
        }
        let members = Vec::with_capacity(usize::from(spare[SETS - 1]));
        Matching { list, members, spare }
    }

    fn raises(&self, traits: u8) -> bool {
        !self.spare.iter().enumerate().any(|(set, left)| is_within(traits, set as u8) && *left == 0)
    }

    fn take(&mut self, traits: u8) {
        for (set, left) in self.spare.iter_mut().enumerate() {
            if is_within(traits, set as u8) {
                *left -= 1;
            }
        }
    }

    fn give(&mut self, traits: u8) {
        for (set, left) in self.spare.iter_mut().enumerate() {
            if is_within(traits, set as u8) {
                *left += 1;
            }
        }
    }

    fn augment(&mut self, person: &Person) -> Augment {
        let mut least: Option<u8> = None;
        for set in 0..SETS as u8 {
            if is_within(person.traits, set) && self.spare[usize::from(set)] == 0 {
                least = Some(least.map_or(set, |other| other & set));
            }
        }
        let Some(set) = least else {
            self.take(person.traits);
            self.members.push(*person);
            return Augment::Raised;
        };
        let mut worst: Option<&Person> = None;
        for member in self.members.iter().filter(|member| is_within(member.traits, set)) {
            if worst.is_none_or(|other| better(other, member, self.list)) {
                worst = Some(member);
            }
        }
        Augment::Held(worst.map(|member| member.id))
    }

    fn exchange(&mut self, out: u32, person: &Person) {
        let at = self.members.iter().position(|member| member.id == out).expect("a member leaves");
        let left = self.members.remove(at);
        self.give(left.traits);
        self.take(person.traits);
        self.members.push(*person);
    }
}

/// The place of a new person among people in merit order.
fn place_for(people: &[Person], person: &Person, list: u8) -> usize {
    people.iter().rposition(|other| better(other, person, list)).map_or(0, |at| at + 1)
}

/// The seats of a step, and whom they hold.
pub struct StepState {
    list: u8,
    pub seats: usize,
    matching: Matching,
    pub held: Vec<Person>,
    marks: Vec<bool>,
}

impl StepState {
    fn new(list: u8, seats: usize, counts: [u16; 6]) -> StepState {
        StepState {
            list,
            seats,
            matching: Matching::new(counts, list),
            held: Vec::with_capacity(seats + 1),
            marks: Vec::with_capacity(seats + 1),
        }
    }

    /// Offers the person to the step, and tells who is left without a seat of it.
    fn hand(&mut self, person: &Person) -> Option<Person> {
        let at = place_for(&self.held, person, self.list);
        if at == self.seats && !self.matching.raises(person.traits) {
            return Some(*person);
        }
        let needed = self.join(person);
        self.held.insert(at, *person);
        self.marks.insert(at, needed);
        if self.held.len() <= self.seats {
            return None;
        }
        let last = self.marks.iter().rposition(|mark| !mark).expect("not all are needed");
        self.marks.remove(last);
        Some(self.held.remove(last))
    }

    fn join(&mut self, person: &Person) -> bool {
        let worst = match self.matching.augment(person) {
            Augment::Raised => return true,
            Augment::Held(None) => return false,
            Augment::Held(Some(worst)) => worst,
        };
        let at = self.held.iter().position(|other| other.id == worst).expect("members are held");
        if !better(person, &self.held[at], self.list) {
            return false;
        }
        self.matching.exchange(worst, person);
        self.marks[at] = false;
        true
    }
}

pub enum Offered {
    Taken,
    /// who has left
    #[allow(dead_code)]
    Displaced(u32),
    Refused,
}

/// A programme, and whom each of its steps admits: the seats of EWS that stay empty go on only from version 2 of the bundle.
pub struct ProgrammeState {
    list: u8,
    version: u8,
    pub open: StepState,
    pub ews: StepState,
    pub obc: StepState,
    pub sc: StepState,
    pub st: StepState,
    pub dereserved: Vec<Person>,
}

/// The seats of a step, and how many of them each trait protects.
pub type Seats = (usize, [u16; 6]);

fn hand_member(step: &mut StepState, category: Category, coming: Option<Person>) -> Option<Person> {
    match coming {
        Some(person) if person.category == category => step.hand(&person),
        other => other,
    }
}

impl ProgrammeState {
    pub fn new(list: u8, version: u8, steps: &[Seats; 5]) -> ProgrammeState {
        let [open, ews, obc, sc, st] = steps.map(|(seats, counts)| StepState::new(list, seats, counts));
        let dereserved = Vec::with_capacity(ews.seats + obc.seats + 1);
        ProgrammeState { list, version, open, ews, obc, sc, st, dereserved }
    }

    /// The seats that the categories leave to all.
    pub fn empty(&self) -> usize {
        let of_ews = if self.version == 1 { 0 } else { self.ews.seats - self.ews.held.len() };
        of_ews + self.obc.seats - self.obc.held.len()
    }

    #[inline(never)]
    pub fn offer(&mut self, person: &Person) -> Offered {
        let by_open = if person.is_common(self.list) { self.open.hand(person) } else { Some(*person) };
        let by_ews = hand_member(&mut self.ews, Category::Ews, by_open);
        let by_obc = hand_member(&mut self.obc, Category::Obc, by_ews);
        let by_sc = hand_member(&mut self.sc, Category::Sc, by_obc);
        let by_st = hand_member(&mut self.st, Category::St, by_sc);
        match self.keep_best(by_st, self.empty()) {
            None => Offered::Taken,
            Some(gone) if gone.id == person.id => Offered::Refused,
            Some(gone) => Offered::Displaced(gone.id),
        }
    }

    fn keep_best(&mut self, coming: Option<Person>, seats: usize) -> Option<Person> {
        if let Some(person) = coming {
            if !person.is_common(self.list) {
                return Some(person);
            }
            let at = place_for(&self.dereserved, &person, self.list);
            self.dereserved.insert(at, person);
        }
        (self.dereserved.len() > seats).then(|| self.dereserved.remove(seats))
    }

    fn admitted(&self) -> usize {
        [&self.open, &self.ews, &self.obc, &self.sc, &self.st].iter().map(|step| step.held.len()).sum::<usize>()
            + self.dereserved.len()
    }
}

/// The person of this number, whose place the stride spreads over all places.
fn person(number: u32, stride: u32) -> Person {
    let category = match number % 10 {
        0..=3 => Category::Gen,
        4 => Category::Ews,
        5..=7 => Category::Obc,
        8 => Category::Sc,
        _ => Category::St,
    };
    let traits = match number % 16 {
        0 => 1,
        1 => 2,
        2 => 4,
        3 => 3,
        4 => 5,
        5 => 6,
        6 => 7,
        _ => 0,
    };
    let place = 1 + number * stride % PLACES;
    let place = if category != Category::Gen && number % 7 == 0 { Place::Relaxed(place) } else { Place::Common(place) };
    Person { id: number, category, traits, places: [place, Place::Absent, Place::Absent, Place::Absent] }
}

fn main() {
    let strides = [7_919, 12_345];
    let steps = [
        (100, [20, 10, 10, 0, 0, 0]),
        (20, [4, 2, 0, 0, 0, 0]),
        (50, [10, 5, 5, 0, 0, 0]),
        (20, [4, 2, 0, 0, 0, 0]),
        (10, [2, 0, 0, 0, 0, 0]),
    ];
    let mut admitted = 0;
    let mut counts = [0; 3];
    for stride in strides {
        let mut state = ProgrammeState::new(1, 2, &steps);
        for number in 1..=PEOPLE {
            match state.offer(&person(number, stride)) {
                Offered::Taken => counts[0] += 1,
                Offered::Displaced(_) => counts[1] += 1,
                Offered::Refused => counts[2] += 1,
            }
        }
        admitted += state.admitted();
    }
    println!("{admitted} admitted, {counts:?} taken, displaced and refused");
}
