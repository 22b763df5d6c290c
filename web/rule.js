/** What can be said about published texts: their readers, the answers that are open, the two questions of a refusal, and what a list alone settles.
 * No part of this makes an allocation, and none of it knows the page. Forms and names of faults are those of docs/FORMATS.md. */

export const TRAITS = [..."WDXSFL"];
export const STEPS = ["OPEN", "EWS", "OBC", "SC", "ST", "D"];
export const CHOICES = ["freeze", "float", "slide", "withdraw"];
export const MOST_TURNS = 16;

const MOST_BYTES = 16_777_216;
const MOST_SEATS = 4_000;
const MOST_PEOPLE = 250_000;
const MOST_ID = 999_999_999;

/** A text that is not of its form, with the line and the kind of its first fault. */
export class Unreadable extends Error {
  constructor(line, kind) {
    super(`line ${line} ${kind}`);
    this.line = line;
    this.kind = kind;
  }
}

/** Returns the number that a text spells, or null where it spells none from 0 to `most`. */
function number(text, most) {
  return /^(0|[1-9][0-9]{0,8})$/.test(text ?? "") && Number(text) <= most ? Number(text) : null;
}

export const isCandidate = (text) => number(text, MOST_ID) > 0;
export const isCode = (text) => /^[A-Za-z0-9-]{1,16}$/.test(text);
export const isToken = (text) => /^[A-Za-z0-9]{8,32}$/.test(text);

/** Returns the lines of a text: one carriage return before each end is dropped, and one byte order mark at the start. */
export function linesOf(text) {
  const lines = text.replace(/^\uFEFF/, "").split("\n").map((line) => line.replace(/\r$/, ""));
  if (lines.at(-1) === "") lines.pop();
  return lines;
}

// ---- the texts of the office

/** Reads a list: its round, its programme, and its steps with the rows of those whom they admit. */
export function readList(text) {
  const lines = linesOf(text);
  const [, round, code] = matched(lines, 0, /^list (\d+) (\S+)$/);
  const steps = [];
  let at = 1;
  while (lines[at] !== "end list") {
    const [, name, seats, candidates, admitted] = matched(lines, at, /^step (\S+) seats (\d+) candidates (\d+) admitted (\d+)$/);
    const [, honoured] = matched(lines, at + 1, /^honoured (\d+)$/);
    at += 2;
    const rows = [];
    for (const end = at + Number(admitted); at < end; at++) {
      const [, id, slot] = matched(lines, at, /^(\d+) ([WDXSFL-])$/);
      rows.push({ id: Number(id), slot });
    }
    steps.push({ name, seats: Number(seats), candidates: Number(candidates), honoured: Number(honoured), rows });
  }
  return { round: Number(round), code, steps };
}

/** Reads the text of a round or of the final admissions: its rows, each a candidate with a programme and a step. */
export function readRound(text) {
  const lines = linesOf(text);
  const [, head, count] = matched(lines, 0, /^(round \d+ seated|final) (\d+)$/);
  const row = head === "final" ? /^admit (\d+) (\S+) (\S+)$/ : /^allot (\d+) (\S+) (\S+)$/;
  const rows = [];
  for (let at = 1; at <= Number(count); at++) {
    const [, id, code, step] = matched(lines, at, row);
    rows.push({ id: Number(id), code, step });
  }
  matched(lines, Number(count) + 1, head === "final" ? /^end final$/ : /^end round$/);
  return rows;
}

/** Reads what the special round gave: its rows, as of any round, after a line with the number of vacant seats. */
export function readSpecial(text) {
  matched(linesOf(text), 0, /^special seats (\d+) seated (\d+)$/);
  return readRound(text.slice(text.indexOf("\n") + 1));
}

/** Reads a reason: its kind, what follows it, and for a refusal the steps at which the candidate was considered. */
export function readWhy(text) {
  const lines = linesOf(text);
  const [, cand, code, kind, detail] = matched(lines, 0, /^why (\d+) (\S+) (admitted|better|notsought|refused)(?: (\S+))?$/);
  const steps = [];
  for (let at = 1; kind === "refused" && lines[at] !== "end why"; at++) {
    const [, name, seats, worse] = matched(lines, at, /^(\S+) seats (\d+) worse (yes|no)$/);
    steps.push({ name, seats: Number(seats), worse: worse === "yes" });
  }
  return { cand: Number(cand), code, kind, detail: detail ?? null, steps };
}

export function matched(lines, at, form) {
  const found = form.exec(lines[at] ?? "");
  if (!found) throw new Unreadable(at + 1, "BadLine");
  return found;
}

const LINES = {
  noted: (b) => `noted ${b.cand} window ${b.window} turn ${b.turn} ${b.choice}`,
  raised: (b) => `raised ${b.programme} ${b.step} window ${b.window} seats ${b.seats}`,
  published: (b) => `published ${b.round} seated ${b.seated}`,
  final: (b) => `final admitted ${b.admitted}`,
  seat: (b) => `seat ${b.cand} round ${b.round} ${b.standing} ${b.programme ? `${b.programme} ${b.step}` : "none"}`,
  state: (b) => `state window ${b.now} rounds ${b.rounds} published ${b.published}`,
  choices: (b) => `choices ${b.cand} ${b.programmes.join(" ")}`.trimEnd(),
  register: (b) => `register ${b.cand} ${b.category} ${b.traits || "-"} ${b.places.map((it) => it ?? "-").join(" ")}`,
  answers: (b) => [`answers ${b.cand} noted ${b.answers.length}`, ...receiptsOf(b).map(LINES.noted), "end answers"].join("\n"),
  refused: (b) => ["refused", b.refused, b.name, ...carried(b)].join(" "),
};
const CARRIED = ["rule", "kept", "now", "last", "standing", "published", "seats", "total"];

function carried(body) {
  if (body.how !== undefined) return [body.how];
  return CARRIED.filter((key) => body[key] !== undefined).flatMap((key) => [key, body[key]]);
}

/** Returns the receipts of a reply that has all answers of a candidate. */
export const receiptsOf = (b) => b.answers.map((it) => ({ reply: "noted", cand: b.cand, ...it }));

/** Returns a reply as the line or text that the office writes for it outside of HTTP, and that a court compares. */
export const lineOf = (body) => body.text ?? LINES[body.reply]?.(body) ?? JSON.stringify(body);

// ---- the answers that are open to a candidate

/** Returns the answers that the office takes now from a candidate with this seat. `left` is how the last cut left the candidate, and
 * `turns` how many answers of the open window the office has. */
function openAnswers(seat, left, turns) {
  if (seat.standing === "withdrawn" || seat.standing === "noshow") return [];
  if (!seat.programme || turns >= MOST_TURNS) return ["withdraw"];
  if (left === "freeze") return ["freeze", "withdraw"];
  if (left === "slide") return ["freeze", "slide", "withdraw"];
  return CHOICES;
}

/** Returns what the office takes now from a candidate, how the last cut left the candidate, and how many answers of the open window it has.
 * `answers` are all answers of the candidate, in their order. */
export function openNow(seat, state, answers) {
  if (state.now > state.rounds) return { open: [], left: seat.standing, turns: 0 };
  const turns = answers.filter((it) => it.window === state.now).at(-1)?.turn ?? 0;
  const before = answers.filter((it) => it.window < state.now).at(-1)?.choice;
  // without an answer in this window, the candidate is as the cut left it; a seat without any answer is a first offer
  const left = turns && seat.programme ? (before ?? "offered") : seat.standing;
  return { open: openAnswers(seat, left, turns), left, turns };
}

/** Returns the situation of a candidate, by which a page says first what to do. `choices` is null while it is not here yet. */
export function situation({ seat, state, choices = null }) {
  if (seat.standing === "withdrawn" || seat.standing === "noshow") return seat.standing;
  if (state.now > state.rounds) return seat.programme ? "admitted" : "without";
  const isEmpty = choices?.programmes.length === 0;
  if (state.published === 0) return isEmpty ? "earlyEmpty" : "early";
  if (!seat.programme) return isEmpty ? "waitingEmpty" : "waiting";
  return seat.standing === "offered" ? "offered" : "kept";
}

/** Returns where on a list a seat was before the last round, and where it is now, each counted from 1; or null if the candidate did not move up.
 * `held` is the programme of the seat in the round before. */
export function moved(choices, held, now) {
  const [from, to] = [held, now].map((it) => choices.indexOf(it) + 1);
  return from > to && to > 0 ? { from, to } : null;
}

/** Returns the programmes that a page looks through, in their order, for the seat of the round before: a seat never moves down. */
export const heldBefore = (choices, now) => (choices.includes(now) ? choices.slice(choices.indexOf(now)) : []);

/** Returns a token in groups of four, as people read it. */
export const grouped = (token) => token.match(/.{1,4}/g)?.join(" ") ?? "";

// ---- the sheet of a step and its two questions

/** Reads the sheet of a step: its seats, its protected seats by trait, and its people in merit order. */
export function readSheet(text) {
  if (text.length > MOST_BYTES) throw new Unreadable(0, "TooLong");
  const lines = linesOf(text).map((line) => line.replace(/,+$/, ""));
  if (lines[0] !== "step sheet 1") throw new Unreadable(1, "BadFirstLine");
  const sheet = { seats: null, protect: {}, people: [] };
  const seen = new Set();
  lines.forEach((line, at) => {
    if (at > 0 && line !== "") readSheetLine(sheet, seen, line.split(","), at + 1);
  });
  if (sheet.seats === null) throw new Unreadable(lines.length + 1, "BadLine");
  return sheet;
}

function readSheetLine(sheet, seen, [word, first, second, ...more], line) {
  const want = (holds, kind = "BadLine") => {
    if (!holds) throw new Unreadable(line, kind);
  };
  want(more.length === 0);
  if (word === "seats") {
    sheet.seats = sheet.seats === null && second === undefined ? number(first, MOST_SEATS) : null;
    want(sheet.seats !== null);
  } else if (word === "protect") {
    const seats = number(second, MOST_SEATS);
    want(sheet.seats !== null && sheet.people.length === 0 && TRAITS.includes(first) && seats !== null);
    want(!(first in sheet.protect), "RepeatedProtect");
    sheet.protect[first] = seats;
    want(sum(sheet.protect) <= sheet.seats, "ProtectionsExceedSeats");
  } else {
    const traits = second === undefined || second === "-" ? "" : second;
    want(word === "cand" && sheet.seats !== null && isCandidate(first));
    want(second !== "" && /^W?D?X?S?F?L?$/.test(traits));
    want(!seen.has(first), "RepeatedCandidate");
    want(sheet.people.length < MOST_PEOPLE, "TooMany");
    seen.add(first);
    sheet.people.push({ id: Number(first), traits });
  }
}

const sum = (counts) => Object.values(counts).reduce((all, one) => all + one, 0);

/** Protected seats and the people who fill them. Who fills which may change as people come; how many are filled never falls. */
export class Filling {
  constructor(protect) {
    this.left = { ...protect };
    // for each trait, the people on its seats by the traits that they hold
    this.on = Object.fromEntries(Object.keys(protect).map((trait) => [trait, new Map()]));
    this.count = 0;
  }

  /** Adds a person if one protected seat more can be filled with this person, and returns whether it can. */
  add(person) {
    const via = new Map();
    const reached = [];
    const reach = (traits, mover) => {
      for (const trait of traits) {
        if (trait in this.on && !via.has(trait)) {
          via.set(trait, mover);
          reached.push(trait);
        }
      }
    };
    reach(person.traits, null);
    for (const trait of reached) {
      if (this.left[trait] > 0) {
        this.move(person, trait, via);
        return true;
      }
      for (const [traits, people] of this.on[trait]) if (people.length) reach(traits, { trait, traits });
    }
    return false;
  }

  /** Moves people towards the free seat of a trait, so that the newcomer finds one. */
  move(newcomer, free, via) {
    let to = free;
    this.left[free]--;
    for (let mover = via.get(to); mover; mover = via.get(to)) {
      this.put(this.on[mover.trait].get(mover.traits).pop(), to);
      to = mover.trait;
    }
    this.put(newcomer, to);
    this.count++;
  }

  put(person, trait) {
    const people = this.on[trait].get(person.traits);
    if (people) people.push(person);
    else this.on[trait].set(person.traits, [person]);
  }

  /** Returns who fills the seats of each trait: one way of all those that fill as many. */
  placement() {
    return Object.entries(this.on)
      .map(([trait, people]) => ({ trait, ids: [...people.values()].flat().map((it) => it.id) }))
      .filter((it) => it.ids.length);
  }
}

const FEW = 6;

/** Answers the two questions for a candidate of a sheet, with the lines by which the first was answered. Returns null for a number that
 * the sheet does not have. */
export function twoQuestions(sheet, id) {
  const place = sheet.people.findIndex((it) => it.id === id);
  if (place < 0) return null;
  const filling = new Filling(sheet.protect);
  const [lines, kept] = [[], []];
  let needed = false;
  let ahead = 0;
  sheet.people.forEach((person, at) => {
    const before = { count: kept.length, ids: kept.length <= FEW ? [...kept] : null };
    const yes = filling.add(person);
    if (yes) kept.push(person.id);
    if (at <= place) lines.push({ person, before, filled: filling.count, placement: filling.count <= FEW ? filling.placement() : null, needed: yes });
    if (at < place && !yes) ahead++;
    if (at === place) needed = yes;
  });
  const honoured = filling.count;
  const free = sheet.seats - honoured;
  return { lines, needed, honoured, free, ahead, admitted: needed || ahead < free };
}

// ---- what a published list settles by itself

const filledBy = (step, trait) => step.rows.filter((row) => row.slot === trait).length;

/** Returns what is wrong with a step of a list by itself, or null. `protect` has the protected seats of the step, or is null if they are not known. */
export function stepFault(step, protect) {
  const letters = step.rows.filter((row) => row.slot !== "-").length;
  const wanted = Math.min(step.seats, step.candidates);
  if (step.rows.length < wanted) return { key: "empty" };
  if (step.rows.length > wanted) return { key: "crowded" };
  if (letters !== step.honoured) return { key: "letters", letters, honoured: step.honoured };
  const over = protect && TRAITS.find((trait) => filledBy(step, trait) > (protect[trait] ?? 0));
  return over ? { key: "over", trait: over } : null;
}

/** Says whether a list alone settles the refusal of somebody whom it does not name: `right`, `wrong` or `open`, and by what.
 * `traits` are what the person holds, and `worse` is the office's word on whether somebody worse is admitted. */
export function settledByList(step, protect, traits, worse) {
  const fault = stepFault(step, protect);
  if (fault) return { verdict: "wrong", by: fault };
  const counted = [...traits].filter((trait) => protect[trait]);
  const empty = counted.find((trait) => filledBy(step, trait) < protect[trait]);
  if (empty) return { verdict: "wrong", by: { key: "unfilled", trait: empty } };
  const last = step.rows.at(-1);
  if (worse && last?.slot === "-") return { verdict: "wrong", by: { key: "bymerit", id: last.id } };
  if (worse && last && counted.includes(last.slot)) return { verdict: "wrong", by: { key: "sametrait", id: last.id, trait: last.slot } };
  if (!worse && counted.length === 0) return { verdict: "right", by: { key: "notrait" } };
  if (!worse && step.honoured === sum(protect)) return { verdict: "right", by: { key: "allfilled" } };
  return { verdict: "open", by: worse ? { key: "needed", trait: last.slot } : { key: "others", traits: counted } };
}
