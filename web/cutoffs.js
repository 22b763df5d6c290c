/** The cutoffs of a published round: their readers, and the one comparison that decides a refusal. It knows nothing of the page.
 *
 * A step has a line for a set of traits if its place is worse than that of each smaller set. So somebody who may stand for the step is within its
 * cutoff if one of the lines whose letters the person all holds has their place or a worse one. */
import { linesOf, matched, STEPS, Unreadable } from "./rule.js";

// a step that admits any place
const ANY = Infinity;

const LINE = /^(OPEN|EWS|OBC|SC|ST|D) (-|W?D?X?S?F?L?) (any|[1-9][0-9]{0,8})$/;
const ROW = /^([A-Za-z0-9-]{1,16}),([A-Za-z0-9-]{1,16}),(OPEN|EWS|OBC|SC|ST|D),(-|W?D?X?S?F?L?),(any|[1-9][0-9]{0,8})$/;
const PLACE = /^([1-9][0-9]{0,8})(R?)$/;

const line = (step, traits, place) => ({ step, traits: traits === "-" ? "" : traits, place: place === "any" ? ANY : Number(place) });

/** Reads the cutoffs of a programme: its round, its code, and its lines in their order. */
export function readCutoffs(text) {
  const lines = linesOf(text);
  const [, round, code] = matched(lines, 0, /^cutoffs (\d+) (\S+)$/);
  const found = [];
  for (let at = 1; lines[at] !== "end cutoffs"; at++) found.push(line(...matched(lines, at, LINE).slice(1)));
  return { round: Number(round), code, lines: found };
}

/** Reads the paper with the cutoffs of all programmes of a round: for each its code, its institute and its lines. */
export function readCutoffTable(text) {
  const rows = linesOf(text);
  if (rows[0] !== "programme,institute,step,traits,place") throw new Unreadable(1, "BadFirstLine");
  const found = new Map();
  for (let at = 1; at < rows.length; at++) {
    const [, code, institute, ...more] = matched(rows, at, ROW);
    if (!found.has(code)) found.set(code, { code, institute, lines: [] });
    found.get(code).lines.push(line(...more));
  }
  return [...found.values()];
}

/** Returns the number of a place as the register spells it, and whether it is a common one. Returns null for another text. */
export function readPlace(text) {
  const found = PLACE.exec(text ?? "");
  return found && { place: Number(found[1]), isCommon: found[2] === "" };
}

/** Returns the lines of a programme by step, in the order in which it goes through its steps. */
export const bySteps = (lines) => STEPS.map((step) => ({ step, lines: lines.filter((it) => it.step === step) })).filter((it) => it.lines.length);

/** Returns whether somebody with this category and place may stand for a step. */
const mayStand = (step, category, isCommon) => (step === "OPEN" || step === "D" ? isCommon : step === category);

/** Returns the lines that can be those of somebody with these letters: each of their letters is one that the person holds. */
export const heldOf = (lines, traits) => lines.filter((it) => [...it.traits].every((letter) => traits.includes(letter)));

/** Compares a place with the cutoffs of a programme: for each step for which the person may stand, its lines, those of them that can be theirs, the line that decides or null for
 * none, and whether the person is within. `traits` are the letters that the person holds. */
export function compared(lines, { category, traits }, { place, isCommon }) {
  return STEPS.filter((step) => mayStand(step, category, isCommon)).map((step) => {
    const own = lines.filter((it) => it.step === step);
    const held = heldOf(own, traits);
    const best = held.reduce((one, other) => (one === null || other.place > one.place ? other : one), null);
    return { step, lines: own, held, best, place, isWithin: best !== null && place <= best.place };
  });
}

/** Returns compared steps in the order in which they explain a refusal: the nearest cutoff decides, so it comes first; last are steps whose lines are for others, and those that
 * admit nobody more. */
export function byNearness(steps) {
  const far = (it) => (it.best ? it.place - it.best.place : it.lines.length ? Number.MAX_VALUE : Infinity);
  return [...steps].sort((one, other) => (far(one) === far(other) ? 0 : far(one) - far(other)));
}

/** Returns the first step, in the order of the steps, within whose cutoffs somebody is, or undefined: it is the one whose seat it would be. */
export const firstWithin = (steps) => steps.find((it) => it.isWithin);
