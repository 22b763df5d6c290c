/** The office's own words, next to what they say in the words of people: with the moment, the candidate, and the names of programmes. */
import { serverTime } from "./ask.js";
import { readPlace } from "./cutoffs.js";
import { details, el, verbatim } from "./dom.js";
import { lineOf, receiptsOf } from "./rule.js";
import { listName, seatName, shownPlace } from "./season.js";
import { CATEGORIES, CHOICES, ENTRY, HOLDS, HOLDS_NOTHING, kindOfSeat, MOMENT, OWN, OWN_WORDS, phase, RECEIPTS } from "./words.js";

const READERS = {
  seat: (b) => OWN.seat({ round: b.round, seat: b.programme && seatName(b.programme), kind: kindOfSeat(b.step, 1), answer: CHOICES[b.standing]?.name, isOpen: b.standing === "offered" }),
  state: (b) => phase(b).join(" "),
  register: (b) => OWN.register(CATEGORIES[b.category] ?? b.category, [...b.traits].map((it) => HOLDS[it] ?? it).join(", ") || HOLDS_NOTHING, placesOf(b)),
  choices: (b) => (b.programmes.length ? OWN.choices(b.programmes.map(seatName)) : OWN.noChoices),
  noted: (b) => OWN.noted({ ...b, answer: CHOICES[b.choice].name }),
};

function placesOf(entry) {
  const places = entry.places.map((it, at) => [at + 1, readPlace(it)]).filter(([, it]) => it);
  return places.map(([list, it]) => ENTRY.short(shownPlace(list, it.place), it.isCommon, listName(list)));
}

/** Returns what a reply of the office says, in sentences. */
export function reading(body) {
  if (body.reply === "answers") return body.answers.length ? receiptsOf(body).map(READERS.noted) : [RECEIPTS.none];
  return READERS[body.reply] ? [READERS[body.reply](body)] : [];
}

/** Returns who asked and when, as the head of the office's own words. */
export const headOf = ({ cand, application }) => OWN.head({ cand, application, time: MOMENT(serverTime()) });

/** Shows replies in the office's own words, folded, with what they say. */
export const ownReplies = (who, ...bodies) =>
  details(OWN_WORDS, el("p", { class: "hint" }, headOf(who)), el("ul", {}, bodies.flatMap(reading).map((it) => el("li", {}, it))), verbatim(bodies.map(lineOf).join("\n")));

/** Shows texts in the office's own words, folded, with what they are. */
export const ownTexts = (who, what, ...texts) => details(OWN_WORDS, el("p", { class: "hint" }, headOf(who)), el("p", {}, what), texts.filter(Boolean).map((it) => verbatim(it)));
