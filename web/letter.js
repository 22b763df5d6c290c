/** A letter of allotment: on the screen, for paper, and as a file that opens anywhere. */
import { serverTime } from "./ask.js";
import { readPlace } from "./cutoffs.js";
import { el, show, verbatim } from "./dom.js";
import { headOf, reading } from "./own.js";
import { lineOf, receiptsOf } from "./rule.js";
import { contact, instituteName, instituteOf, listName, programmeName, programmeOf, seasonTitles, shownPlace } from "./season.js";
import { CATEGORIES, ENTRY, HOLDS, HOLDS_NOTHING, kindOfSeat, LETTER, NOT_DISABILITY } from "./words.js";

// the style of the file, which has no sign that a markup writes in another way
const STYLE = [
  "body { margin: 0 auto; max-width: 44rem; padding: 1rem; background: #fff; color: #111; font: 1rem/1.5 sans-serif; overflow-wrap: break-word; }",
  "h1 { font-size: 1.5rem; } h2 { font-size: 1.15rem; } table { width: 100%; border-collapse: collapse; }",
  "th, td { border: 1px solid #999; padding: .3rem .5rem; text-align: left; vertical-align: top; overflow-wrap: anywhere; } th { width: 35%; }",
  "pre { white-space: pre-wrap; overflow-wrap: anywhere; border: 1px solid #999; padding: .5rem; }",
  ".by-hand { display: block; min-height: 1.6rem; border-bottom: 1px dotted #999; color: #555; font-size: .8rem; }",
].join("\n");

/** A line for what the office does not know, such as a name. */
const byHand = () => el("span", { class: "by-hand" }, LETTER.byHand);

/** The rows of a letter. Those of which the papers say nothing are left out. */
function rowsOf({ cand, application, seat, entry, answers, end }, standing, help) {
  const { fields } = LETTER;
  const [board, season] = seasonTitles();
  const programme = programmeOf(seat.programme);
  const place = programme && readPlace(entry.places[programme.list - 1]);
  const last = receiptsOf(answers).at(-1);
  return [
    [fields.board, board && el("span", { lang: board.lang }, board.text)],
    [fields.season, season && el("span", { lang: season.lang }, season.text)],
    [fields.candidate, cand],
    [fields.name, byHand()],
    [fields.application, application ?? byHand()],
    [fields.programme, el("strong", {}, programmeName(seat.programme))],
    [fields.institute, instituteOf(seat.programme) && instituteName(instituteOf(seat.programme))],
    [fields.kind, kindOfSeat(seat.step, 1)],
    [fields.category, CATEGORIES[entry.category] ?? entry.category],
    [fields.traits, [...entry.traits].map((it) => HOLDS[it] ?? it).join(", ") || HOLDS_NOTHING],
    [fields.place(programme && listName(programme.list)), place && ENTRY.place(shownPlace(programme.list, place.place), place.isCommon, entry.category)],
    [fields.round, seat.round],
    [fields.standing, standing],
    [fields.end, end && LETTER.time(end)],
    [fields.receipt, last ? [...reading(last), " ", el("code", { lang: "en" }, lineOf(last))] : LETTER.noReceipt],
    [fields.help, help?.text],
  ].filter(([, fact]) => fact);
}

/** Fills a region with the letter. */
export async function showLetter(region, who, standing, isFinal) {
  const rows = rowsOf(who, standing, await contact()).map(([name, fact]) => el("tr", {}, el("th", { scope: "row" }, name), el("td", {}, fact)));
  const replies = [who.seat, who.state, who.entry, who.answers];
  show(
    region,
    el("h1", {}, LETTER.title(isFinal)),
    el("table", {}, el("tbody", {}, rows)),
    who.seat.step === "D" && el("p", {}, el("strong", {}, NOT_DISABILITY)),
    el("h2", {}, LETTER.use),
    el("ul", {}, LETTER.uses(isFinal, who.state.published).map((it) => el("li", {}, it))),
    el("h2", {}, LETTER.own),
    headOf(who),
    el("ul", {}, replies.flatMap(reading).map((it) => el("li", {}, it))),
    verbatim(replies.map(lineOf).join("\n")),
    LETTER.foot(location.origin, LETTER.time(serverTime())),
  );
}

/** Returns the letter in a region as a file of its own: its style is inside, so it opens in any browser and asks for nothing. */
export function letterFile(region, isFinal) {
  const head = `<meta charset="utf-8">\n<meta name="viewport" content="width=device-width, initial-scale=1">\n<title>${LETTER.title(isFinal)}</title>\n<style>\n${STYLE}\n</style>`;
  return `<!DOCTYPE html>\n<html lang="${document.documentElement.lang}">\n<head>\n${head}\n</head>\n<body>\n${new XMLSerializer().serializeToString(region)}\n</body>\n</html>\n`;
}
