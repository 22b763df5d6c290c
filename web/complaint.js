/** The file for a complaint: sentences that a clerk or a court can read, and below them the office's own words. */
import { serverTime } from "./ask.js";
import { headOf, reading } from "./own.js";
import { lineOf } from "./rule.js";
import { seasonTitles } from "./season.js";
import { COMPLAINT, MOMENT, OWN_WORDS } from "./words.js";

const titled = (title, ...lines) => [title, "-".repeat([...title].length), ...lines, ""];

/** Returns the sentences of what the page shows of a programme, a line each, without what is folded. */
export const sentencesOf = (parts) =>
  parts.filter(Boolean).flatMap((it) => (typeof it === "string" ? it : it.tagName === "DETAILS" ? [] : it.tagName === "UL" ? [...it.children].map((one) => `- ${one.textContent}`) : it.textContent));

/** Returns the text of the file. `programmes` has what the page was told of each programme that was explained: its heading, the sentences, and the office's texts. */
export function complaintText(who, round, programmes) {
  const replies = [who.seat, who.state, who.entry, who.choices, who.answers];
  const texts = programmes.flatMap((it) => [it.why, it.cutoffs, it.list].filter(Boolean));
  return [
    ...titled(COMPLAINT.title(who.cand, round), ...COMPLAINT.facts({ ...who, titles: seasonTitles().map((it) => it?.text), origin: location.origin, time: MOMENT(serverTime()) })),
    ...titled(COMPLAINT.own, COMPLAINT.ownSpace),
    ...titled(COMPLAINT.known, COMPLAINT.says, ...replies.flatMap(reading)),
    ...programmes.flatMap(({ heading, says }) => titled(heading, ...says)),
    ...titled(OWN_WORDS, headOf(who), "", [...replies.map((it) => `${lineOf(it)}\n`), ...texts].join("\n")),
  ].join("\n");
}
