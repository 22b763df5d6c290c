/** The page for anybody: how far the season is, the cutoffs, the seats of a programme, the text of a round, and the two questions of a refusal. */
import { ask, askList, askPlaces, askRound, askState, hasPaper } from "./ask.js";
import { $, busy, button, clear, details, dropLinks, el, inParts, onPress, onSend, ownWords, ready, saveLink, say, sayFault, show, table, textBox, valueOf, verbatim } from "./dom.js";
import { readPlace } from "./cutoffs.js";
import { fillLike, nameLists, showCutoffs, showLike } from "./finder.js";
import { isLikeApplication } from "./numbers.js";
import { listPicture } from "./picture.js";
import { isCandidate, isCode, lineOf, readList, readRound, readSheet, readSpecial, twoQuestions, Unreadable } from "./rule.js";
import { meant } from "./search.js";
import { allCodes, announcedEnd, instituteName, instituteOf, lookAgain, papersCome, programmeName, programmeOf, publishedPlace, seatName, showContact, showEnd, showNotice, showState, textsOfProgramme } from "./season.js";
import { startVisit } from "./visit.js";
import { ARRIVING, ASKING, EXAMPLE, FAULTS, MOCK, NOT_DISABILITY, OWN_WORDS, QUESTIONS, ROUND, SEATS, SPECIAL, trouble } from "./words.js";

const MOST_LINES = 400;
const MOST_ROWS = 200;
// of so many programmes at once somebody chooses the one that they mean
const MOST_MEANT = 12;
// from so many bytes on, the page says how much has arrived
const LONG = 200_000;
let season = null;

// ---- the season

async function look() {
  const found = await showState($("state"));
  if (!found) return;
  season = found;
  announcedEnd(found).then((end) => showEnd($("closes"), found, end));
  // before round 1 the office may have published a mock round, as papers alone
  const mock = season.now === 0 && (await hasPaper("mock-round.txt")) ? [MOCK] : [];
  $("mock").textContent = mock.length ? ROUND.mock : "";
  options($("list-round"), rounds(season.published));
  for (const it of ["cutoffs-round", "like-round"]) options($(it), [...mock, ...rounds(season.published)]);
  // after the end the board may hold a special round, whose text is a paper alone too
  const special = season.now > season.rounds && (await hasPaper("special-round.txt")) ? [SPECIAL] : [];
  // each cut published a text; the last one is of the final admissions
  options($("round"), [...mock, ...rounds(season.now), ...special]);
}

const rounds = (most) => Array.from({ length: most }, (_, at) => at + 1);

/** Looks by itself, and shows the state if it has changed. */
async function lookWhile() {
  const got = await askState();
  if (got.body?.reply === "state" && (!season || lineOf(got.body) !== lineOf(season))) await look();
}

/** Offers rounds, and keeps what was chosen, or else chooses the last one. */
function options(select, all) {
  const had = select.value;
  select.replaceChildren(...all.map((it) => el("option", { value: it }, ROUND.option(it, season.rounds))));
  if (all.length) select.value = all.some((it) => String(it) === had) ? had : String(all.at(-1));
}

// ---- the seats of a programme

/** Shows the seats of the programme that somebody typed, by a name or a code. Where several are meant, they are offered as buttons. */
async function seekList() {
  const said = $("list-said");
  clear($("list"));
  say(said, "plain");
  const typed = valueOf($("programme"), Boolean, "programme");
  if (!typed) return;
  const round = Number($("list-round").value);
  if (!round) return say(said, "bad", FAULTS.round);
  say(said, "plain", ASKING);
  await papersCome();
  const codes = meant(allCodes(), textsOfProgramme, typed);
  if (codes.length === 1) return showList(round, codes[0]);
  say(said, "plain", codes.length > 0 && SEATS.which(codes.length));
  if (codes.length) return show($("list"), ...inParts(codes, MOST_MEANT, SEATS.moreMeant, (some) => el("ul", { class: "answers" }, some.map((it) => el("li", {}, button(seatName(it), () => showList(round, it)))))));
  // without the papers a code is all that the page can ask for
  if (isCode(typed)) return showList(round, typed);
  sayFault($("programme"), "programme");
  $("programme").focus();
}

/** Shows the seats of a programme in a round. */
async function showList(round, code) {
  const said = $("list-said");
  clear($("list"));
  say(said, "plain", ASKING);
  const got = await askList(round, code);
  const places = await askPlaces(round, code, instituteOf(code));
  if (got.body?.reply !== "list") return say(said, "bad", trouble(got), ownWords(got));
  say(said, "plain");
  const { text } = got.body;
  try {
    const list = readList(text);
    const note = list.steps.some((it) => it.name === "D" && it.seats > 0) ? [el("p", {}, el("strong", {}, NOT_DISABILITY))] : [];
    $("list").replaceChildren(el("h3", {}, SEATS.title(list.round, programmeName(list.code))), ...note, listPicture(list, text, programmeOf(code), null, (cand) => placeWords(code, places?.get(cand))), ...instituteLink(round, code));
  } catch {
    $("list").replaceChildren(el("p", {}, SEATS.unread), details(OWN_WORDS, verbatim(text)));
  }
}

/** Offers the programmes of their own list to a candidate who is signed in; to nobody if there is none. */
async function offerOwn(who) {
  $("own-part").hidden = true;
  $("own").replaceChildren();
  if (!who) return;
  const got = await ask(`choices/${who.cand}`, { token: who.token, signal: who.signal });
  await papersCome();
  const codes = got.body?.reply === "choices" ? got.body.programmes : [];
  if (who.isOver || !codes.length) return;
  $("own").replaceChildren(el("option", { value: "" }), ...codes.map((it, at) => el("option", { value: it }, `${at + 1}. ${seatName(it)}`)));
  $("own-part").hidden = false;
}

/** The words for the published place of somebody with a seat, or null where it is not published. */
function placeWords(code, text) {
  const its = readPlace(text);
  return its && SEATS.place(publishedPlace(programmeOf(code)?.list, its.place), null);
}

/** A link to the paper with all lists of the programme's institute, where the programmes are published. */
function instituteLink(round, code) {
  const institute = instituteOf(code);
  if (!institute) return [];
  return [el("p", {}, el("a", { href: `/season/institute-${round}-${institute}.txt`, download: true, class: "button" }, SEATS.institute(instituteName(institute))))];
}

// ---- the text of a round

async function showRound() {
  const [said, shown] = [$("round-said"), $("round-text")];
  clear(shown);
  dropLinks();
  say(said, "plain");
  const chosen = $("round").value;
  if (!chosen) return say(said, "bad", FAULTS.round);
  const wanted = $("find").value.trim() === "" ? "" : valueOf($("find"), isCandidate, (text) => (isLikeApplication(text) ? "lookup" : "candidate"));
  if (wanted === null) return;
  say(said, "plain", ASKING);
  const isPaper = [MOCK, SPECIAL].includes(chosen);
  const [round, isFinal] = [isPaper ? chosen : Number(chosen), Number(chosen) > season.rounds];
  const name = isFinal ? "final.txt" : round === MOCK ? "mock-round.txt" : round === SPECIAL ? "special-round.txt" : `round-${round}.txt`;
  const got = await askRound(name, isPaper ? null : round, { came: (bytes) => bytes > LONG && say(said, "plain", ARRIVING(bytes)) });
  if (got.body?.reply !== "round") return say(said, "bad", got.trouble === "broken" ? ROUND.missing : trouble(got), ownWords(got));
  await papersCome();
  const { text } = got.body;
  say(said, "plain", ...summary(round, isFinal, text, Number(wanted)));
  const lines = text.split("\n");
  shown.replaceChildren(
    el("p", {}, saveLink(ROUND.save, name, text)),
    ...(lines.length > MOST_LINES ? [el("p", {}, ROUND.cut(MOST_LINES, lines.length - 1))] : []),
    el("h3", {}, ROUND.word),
    textBox(lines.slice(0, MOST_LINES).join("\n"), ROUND.word),
  );
}

/** Says how many candidates have a seat, and the seat of the one who was asked for, where the text can be read. */
function summary(round, isFinal, text, wanted) {
  let rows;
  try {
    rows = round === SPECIAL ? readSpecial(text) : readRound(text);
  } catch {
    return [];
  }
  const all = ROUND.summary(round, season.rounds, rows.length);
  if (!wanted) return [all];
  const row = rows.find((it) => it.id === wanted);
  if (!row) return [all, ROUND.notFound(wanted)];
  const line = `${isFinal ? "admit" : "allot"} ${row.id} ${row.code} ${row.step}`;
  return [all, ROUND.found(row.id, programmeName(row.code), row.step, isFinal), row.step === "D" && el("p", {}, el("strong", {}, NOT_DISABILITY)), verbatim(line)];
}

// ---- the two questions

function checkRefusal() {
  const shown = $("answer");
  clear(shown);
  $("check").open = true;
  const candidate = valueOf($("candidate"), isCandidate, "candidate");
  if (!candidate) return;
  try {
    const sheet = readSheet($("sheet").value);
    const id = Number(candidate);
    const answers = twoQuestions(sheet, id);
    shown.replaceChildren(...(answers ? answered(sheet, id, answers) : [el("p", { class: "say bad" }, QUESTIONS.unknown(id))]));
  } catch (fault) {
    if (!(fault instanceof Unreadable)) throw fault;
    shown.replaceChildren(el("p", { class: "say bad" }, QUESTIONS.unread(fault.line, fault.kind)));
  }
}
function answered(sheet, id, it) {
  const lines = it.lines.slice(-MOST_ROWS);
  const second = [
    el("h3", {}, QUESTIONS.title2(id)),
    el("p", {}, QUESTIONS.free(sheet, it)),
    el("p", {}, QUESTIONS.ahead(id, it.ahead)),
    el("p", {}, el("strong", {}, it.admitted ? QUESTIONS.left : QUESTIONS.notNeeded)),
  ];
  return [
    el("h3", {}, QUESTIONS.title1(id)),
    table(QUESTIONS.caption(lines.length, it.lines.length), QUESTIONS.columns, lines.map(cells)),
    el("p", {}, el("strong", {}, it.needed ? QUESTIONS.needed : QUESTIONS.notNeeded)),
    ...(it.needed ? [] : second),
    el("p", { class: `say ${it.admitted ? "bad" : "good"}` }, it.admitted ? QUESTIONS.admitted(id) : QUESTIONS.refused(id)),
  ];
}

/** The cells of a line by which the first question was answered. */
function cells({ person, before, filled, placement, needed }) {
  const kept = before.count === 0 ? QUESTIONS.nobody : (before.ids?.join(", ") ?? QUESTIONS.people(before.count));
  const holds = [...person.traits].join(", ") || QUESTIONS.nothing;
  return [person.id, holds, kept, QUESTIONS.filled(filled, placement), needed ? QUESTIONS.yes : QUESTIONS.no];
}

fillLike();
onSend($("like-form"), showLike);
onSend($("cutoffs-form"), showCutoffs);
onSend($("list-form"), seekList);
onSend($("round-form"), showRound);
onSend($("check-form"), checkRefusal);
onPress($("refresh"), look);
$("own").addEventListener("change", () => $("own").value && ($("programme").value = seatName($("own").value)));
onPress($("example"), () => {
  $("sheet").value = EXAMPLE.sheet;
  $("candidate").value = EXAMPLE.candidate;
  checkRefusal();
});
lookAgain(lookWhile);
ready();
startVisit(offerOwn);
showNotice($("notice"));
showContact($("contact"));
busy(look).then(papersCome).then(nameLists);
