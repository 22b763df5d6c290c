/** The seats of a list as boxes. It is a list that a screen reader reads in order: protected seats, ordinary seats, empty seats. */
import { details, el, verbatim } from "./dom.js";
import { stepFault, TRAITS } from "./rule.js";
import { kindOfSeat, OWN_WORDS, SEATS } from "./words.js";

const MOST_BOXES = 120;
const MOST_EMPTY = 12;

/** Makes the boxes of a step. `own` has the number of the candidate who looks, or is null; `hasProtected` says whether the step has protected seats, so that
 * a box names the others too. `placeOf` gives the words for the place of a candidate at a step, or null where it is not published. */
function boxes(step, own, hasProtected, placeOf) {
  const rank = new Map(step.rows.map((row, at) => [row, at + 1]));
  const taken = (row) =>
    el(
      "li",
      { class: `${row.slot === "-" ? "" : "protected"} ${row.id === own?.cand ? "own" : ""}` },
      el("span", {}, SEATS.candidate, " ", el("strong", {}, row.id)),
      row.slot !== "-" ? el("span", {}, SEATS.protectedFor(row.slot)) : hasProtected && el("span", {}, SEATS.ordinary),
      el("span", {}, placeOf(row.id, step.name) ?? SEATS.rank(rank.get(row))),
      row.id === own?.cand && el("span", { class: "you" }, SEATS.you),
    );
  const letters = TRAITS.flatMap((trait) => step.rows.filter((row) => row.slot === trait));
  const empty = Array.from({ length: Math.min(step.seats - step.rows.length, MOST_EMPTY) }, () => el("li", { class: "empty" }, SEATS.empty));
  return [...letters.map(taken), ...step.rows.filter((row) => row.slot === "-").map(taken), ...empty];
}

/** Shows some boxes, and the others at a button. */
function grid(step, all) {
  const shown = el("ol", { class: "seats", "aria-label": SEATS.list(step.name, step.seats) }, all.slice(0, MOST_BOXES));
  if (all.length <= MOST_BOXES) return [shown];
  const more = el("button", { type: "button" }, SEATS.more(all.length - MOST_BOXES));
  more.addEventListener("click", () => {
    shown.append(...all.slice(MOST_BOXES));
    all[MOST_BOXES].tabIndex = -1;
    all[MOST_BOXES].focus();
    more.remove();
  });
  return [shown, more];
}

function stepPicture(step, protect, own, placeOf, isMoved) {
  const all = protect && Object.values(protect).reduce((sum, one) => sum + one, 0);
  const fault = stepFault(step, protect);
  const hidden = step.seats - step.rows.length - MOST_EMPTY;
  const unfilled = TRAITS.map((trait) => [trait, (protect?.[trait] ?? 0) - step.rows.filter((row) => row.slot === trait).length, protect?.[trait]]).filter(([, left]) => left > 0 && emptyOf(step) === 0);
  const isOthers = ([trait]) => own && !own.traits.includes(trait);
  const lines = (some) => some.map((it) => el("p", {}, SEATS.unfilled(...it)));
  return el(
    "section",
    { class: "box" },
    el("h4", {}, kindOfSeat(step.name, step.seats)),
    el("p", {}, `${SEATS.summary(step)} ${step.name === "D" ? "" : SEATS.protections(step.honoured, all)}`),
    fault && el("p", { class: "say bad" }, SEATS.wrong(fault)),
    grid(step, boxes(step, own, all > 0 || step.honoured > 0, placeOf)),
    step.honoured > 0 && el("p", { class: "hint" }, SEATS.lettersSay),
    hidden > 0 && el("p", {}, SEATS.moreEmpty(hidden)),
    emptyOf(step) > 0 && el("p", {}, SEATS.emptyWhy(step, isMoved)),
    lines(unfilled.filter((it) => !isOthers(it))),
    unfilled.some(isOthers) && details(SEATS.unfilledOthers, lines(unfilled.filter(isOthers))),
  );
}

const emptyOf = (step) => (step ? step.seats - step.rows.length : 0);

/** Returns whether the empty seats of a step are given as de-reserved ones: those of OBC are, and those of EWS where there are more of them than OBC left. */
function areMoved(list, step) {
  const [obc, d] = ["OBC", "D"].map((name) => list.steps.find((it) => it.name === name));
  return (step.name === "OBC" && d?.seats > 0) || (step.name === "EWS" && d?.seats > emptyOf(obc));
}

/** Shows a list: a box for each step with seats, and the office's own text. `own` has the number and the traits of the candidate who looks, or is null. `programme` has the protected seats, or is undefined. `placeOf` gives the words for the place of a candidate. */
export function listPicture(list, text, programme, own = null, placeOf = () => null) {
  const [some, none] = [list.steps.filter((it) => it.seats > 0), list.steps.filter((it) => it.seats === 0)];
  return el(
    "div",
    {},
    some.map((step) => stepPicture(step, programme ? (programme.steps[step.name]?.protect ?? {}) : null, own, placeOf, areMoved(list, step))),
    some.length === 0 && el("p", {}, SEATS.nothing),
    some.length > 0 && none.length > 0 && el("p", { class: "hint" }, SEATS.without(none.map((it) => it.name))),
    details(OWN_WORDS, verbatim(text)),
  );
}
