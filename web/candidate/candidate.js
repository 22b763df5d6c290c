/** The page of a candidate: what to do and by when, the answers that are open, the seat, receipts, why not another programme, and the entry in the register. */
import { ask, askCutoffs, askList, askPlaces, paper, serverTime } from "../ask.js";
import { byNearness, bySteps, compared, heldOf, readCutoffs, readPlace } from "../cutoffs.js";
import { complaintText, sentencesOf } from "../complaint.js";
import { $, askBeforeLeaving, busy, button, canBeShown, clear, closeQuestions, confirmed, countSigns, details, dropLinks, el, emptyToken, lazyDetails, onPress, onSend, ownWords, paragraphs, ready, saveLink, say, sayFault, show, table, ungrouped, valueOf, valuesOf, verbatim } from "../dom.js";
import { letterFile, showLetter } from "../letter.js";
import { bare, candidateOf, isLikeApplication, numbersPaper } from "../numbers.js";
import { headOf, ownReplies, ownTexts, reading } from "../own.js";
import { listPicture } from "../picture.js";
import { CHOICES as ALL_CHOICES, grouped, heldBefore, isCandidate, isToken, lineOf, MOST_TURNS, moved, openNow, readList, readSpecial, readWhy, receiptsOf, settledByList, situation } from "../rule.js";
import { announcedEnd, endPaper, instituteName, instituteOf, listName, listsEnd, lookAgain, papersCome, programmeOf, publishedPlace, rankListsOf, seatName, showContact, showEnd, shownPlace, showNotice } from "../season.js";
import { carry, endVisit, isVisit, leaveForNext, leaveInTime, SignIn, takeFromLast } from "../session.js";
import { ANSWER, ASKING, CATEGORIES, CHOICES, ENTRY, HELP, HOLDS, HOLDS_NOTHING, IN_ORDER, kindOfSeat, LABELS, LATER, LEFT, LETTER, LIST_FAULTS, moment, MOMENT, NOT_DISABILITY, NUMBERS, OLD, OWN, phase, RECEIPTS, SEAT, SEATS, SETTLED, STANDINGS, STATE, trouble, VISIT, WAITING, WHY } from "../words.js";

const AT_ONCE = 20;
const [UNKNOWN, DENIED, LATE] = [1, 3, 6];
const NAMES_WAIT = 3_000;
const STAYS = ["freeze", "float", "slide"];
// in the round before, somebody's seat is looked for in so many lists
const MOST_LISTS = 30;
const MOST_HELD = 60;
// the parts of the page in their order: first what the candidate may have to do
const ORDER = {
  early: ["entry", "why", "seat", "receipts", "answer"],
  waiting: ["seat", "why", "receipts", "answer", "entry"],
  waitingEmpty: ["seat", "why", "receipts", "answer", "entry"],
  rest: ["answer", "seat", "receipts", "why", "entry"],
};
let me = null;
let carries = false;
// what the board has published of application numbers, if it has
let numbers = null;

const regions = () => ["lead", "closes", "seat", "entry", "receipt", "answers", "receipts", "choices", "why-said", "whys", "complaint", "letter", "letter-said", "letter-save"].map($);
const isIn = () => me !== null && !$("mine").hidden;
const isOver = (who) => who.state.now > who.state.rounds;
const isLast = (who) => who.state.now === who.state.rounds;
const how = (who, more = {}) => ({ token: who.token, signal: who.signal, ...more });

/** A reply that says nothing of what was asked: a trouble, or a refusal that ends the sign-in. */
class NoAnswer extends Error {
  constructor(got) {
    super("the office did not say");
    this.got = got;
  }
}

// ---- signing in and out

const faultOfNumber = (text) => (isLikeApplication(text) ? "application" : "candidate");
const faultOfToken = (text) => (/^[A-Za-z0-9]*$/.test(text) ? "token" : "signs");

async function signIn() {
  say($("said"), "plain");
  numbers ??= await numbersPaper();
  const isNumber = (it) => isCandidate(it) || (numbers !== null && bare(it) !== "");
  const [number, token] = valuesOf([$("number"), isNumber, numbers ? "either" : faultOfNumber], [$("token"), isToken, faultOfToken, ungrouped]) ?? [];
  if (!number) return;
  endVisit();
  const who = await whoIs(number, token);
  if (who) await comesAs(who, () => carry(who).then((can) => (carries = can)));
}

/** Returns the sign-in of a number and a token, where the number may be an application number if the board has published these. */
async function whoIs(number, token) {
  const found = numbers && (await candidateOf(numbers, number, token));
  if (found) return new SignIn(token, { cand: found, application: number });
  if (isCandidate(number)) return new SignIn(token, { cand: Number(number) });
  if (found === null) return stopped({ body: null, trouble: "lost" });
  sayFault($("token"), "pair");
  return $("token").focus();
}

/** Asks for the application number at the door, if the board has published what finds it. */
async function showDoor() {
  numbers = await numbersPaper();
  if (!numbers) return;
  $("number-label").textContent = NUMBERS.label;
  $("number-hint").textContent = NUMBERS.hint;
  if (numbers.letters) $("number").inputMode = "text";
  if (me) offerApplication(me);
}

/** Asks a candidate who signed in with the candidate number for the application number, which nothing else on the page knows: the letter has it then. */
function offerApplication(who) {
  $("application-form").hidden = !numbers || Boolean(who.application);
}

/** Takes the application number for the letter and the receipts, if it is that of this candidate. */
async function addApplication() {
  const who = me;
  const typed = valueOf($("application"), (it) => bare(it) !== "", "ownApplication");
  if (typed === null) return;
  const found = await candidateOf(numbers, typed, who.token);
  if (who !== me) return;
  if (found === null) return stopped({ body: null, trouble: "lost" });
  if (found !== who.cand) {
    sayFault($("application"), "ownApplication");
    return $("application").focus();
  }
  who.application = typed;
  showSeat(who);
  showReceipts(who);
  if (who.receipt) {
    say($("receipt"), "good", ...receiptParts(who, who.receipt));
    checkReceipt(who);
  }
  await fillLetter(who);
  say($("application-said"), "good", LETTER.added(typed));
  $("application-said").focus();
}

async function comesAs(who, then = () => {}) {
  forget();
  me = who;
  say($("said"), "plain", ASKING);
  const isHere = () => {
    comeIn();
    then();
  };
  if (!(await load(who, isHere))) return;
  papersCome().then(() => who === me && showNames());
  if (location.hash === "#why") await checksRefusal(who);
}

/** Shows why not another programme at once to somebody who came for that. */
async function checksRefusal(who) {
  if (!$("why-form").hidden) await explainAll();
  if (who !== me) return;
  $("why-title").focus();
  $("why-part").scrollIntoView();
}

/** Whether there is a programme of which the page can say why it did not admit the candidate. */
const hasReasons = (who) => who.state.published > 0 && who.choices?.programmes.length > 0 && !hasFirst(who);

/** Leads from the first screen to the reasons, and opens them. */
function toReasons(event) {
  event.preventDefault();
  return busy(() => checksRefusal(me));
}

/** Opens what is a candidate's alone, as soon as there is a seat to show. */
function comeIn() {
  if (!$("mine").hidden) return;
  emptyToken($("token"), $("show-token"));
  $("door").hidden = true;
  $("mine").hidden = false;
  $("visit").hidden = false;
  $("visit-text").textContent = VISIT.signedIn(me.cand);
  $("title").focus();
}

/** Forgets who is signed in and clears all that was shown. */
function forget() {
  me?.forget();
  me = null;
  closeQuestions();
  dropLinks();
  clear(...regions());
  for (const it of ["receipt", "why-said"]) say($(it), "plain");
  $("title").textContent = LABELS.candidateTitle;
  hideLetter();
  $("letter-button").hidden = true;
  $("application-form").hidden = true;
  $("application").value = "";
  $("mine").hidden = true;
  $("visit").hidden = true;
  $("visit-text").textContent = "";
  $("door").hidden = false;
  $("door").before($("notice"));
}

function leave(cause) {
  const was = me !== null;
  if (cause === "left" && (isIn() || carries)) leaveForNext(me);
  if (cause !== "left") endVisit();
  forget();
  $("number").value = "";
  emptyToken($("token"), $("show-token"));
  say($("said"), "plain", was && VISIT.left[cause]);
  if (cause === "asked") $("number").focus();
}

/** Signs in by what the page before left in this tab. */
async function comesBack() {
  if (!isVisit()) return;
  // the door is not shown for a moment to somebody who is in already
  $("door").hidden = true;
  say($("said"), "plain", ASKING);
  const found = await takeFromLast();
  if (me !== null) return;
  if (found) {
    carries = true;
    return comesAs(found);
  }
  $("door").hidden = false;
  // nobody is signed out without a word
  say($("said"), "plain", isVisit() && VISIT.lost);
  endVisit();
}

/** Says that the office refused or did not reply. A refused number or token ends the sign-in, and a missing reply does not. What was typed stays, so that a slip can be mended. */
function stopped(got) {
  const signedIn = isIn();
  const denied = [UNKNOWN, DENIED].includes(got.body?.refused);
  if (denied || !signedIn) forget();
  if (denied) endVisit();
  if (denied && signedIn) emptyToken($("token"), $("show-token"));
  say($("said"), "bad", trouble(got), got.trouble && LATER, !denied && signedIn && OLD, ownWords(got), el("div", { id: "said-contact" }));
  showContact($("said-contact"));
  if (!denied) return $("said").focus();
  if (got.body.refused === DENIED && $("token").value) sayFault($("token"), "slip");
  if (got.body.refused === UNKNOWN && $("number").value) sayFault($("number"), "nobody");
  $(got.body.refused === DENIED ? "token" : "number").focus();
}

/** Runs something that asks the office, and says it where the office does not answer. */
async function asking(who, then) {
  try {
    return await then();
  } catch (fault) {
    if (!(fault instanceof NoAnswer)) throw fault;
    if (who === me) stopped(fault.got);
    return null;
  }
}

/** Asks the office for something of one's own, and returns its reply of this kind. */
async function own(who, kind, path = `${kind}/${who.cand}`) {
  const waiting = () => who === me && say($("said"), "plain", WAITING);
  const got = await ask(path, how(who, { waiting }));
  if (got.body?.reply !== kind) throw new NoAnswer(got);
  return got.body;
}

// ---- what is shown of the candidate

/** Asks for the seat and the state, of one and the same round, and shows them at once; then for the rest. Returns whether all came. */
async function load(who, seatIsHere = () => {}) {
  const closing = endPaper();
  const all = await asking(who, async () => {
    for (let tries = 0; tries < 3; tries++) {
      const [seat, state] = await Promise.all([own(who, "seat"), own(who, "state", "state")]);
      Object.assign(who, { seat, state });
      if (seat.round === state.published) break;
    }
    if (who.moveOf !== who.state.published) who.move = null;
    if (who.whysOf !== who.state.published) dropWhys(who);
    const more = Promise.all([own(who, "answers"), who.entry ?? own(who, "register"), who.choices ?? own(who, "choices")]);
    more.catch(() => null);
    who.end = await announcedEnd(who.state, closing);
    if (who !== me) return null;
    say($("said"), "plain");
    showTitle(who);
    showSeat(who);
    seatIsHere();
    const [answers, entry, choices] = await more;
    // the register spells no traits by a dash
    entry.traits = entry.traits.replace("-", "");
    return Object.assign(who, { answers, entry, choices });
  });
  if (who !== me || !all) return false;
  showEverything(who);
  seekMove(who);
  seekSpecial(who);
  return true;
}

/** Puts the parts of the page into the order of this situation. */
function arrange(who) {
  const order = who.state.published === 0 ? ORDER.early : (ORDER[situation(who)] ?? ORDER.rest);
  const mine = $("mine");
  const parts = order.map((it) => $(`${it}-part`));
  const now = [...mine.children].filter((it) => parts.includes(it));
  if (now.some((it, at) => it !== parts[at])) mine.append(...parts);
  if ($("notice").previousElementSibling !== parts[0]) parts[0].after($("notice"));
}

function showEverything(who) {
  arrange(who);
  showTitle(who);
  showAnswers(who);
  showSeat(who);
  checkReceipt(who);
  showReceipts(who);
  showChoices(who);
  showEntry(who);
}

/** Shows names in place of codes, once they are here. It changes nothing under the fingers of somebody who is answering. */
function showNames() {
  showTitle(me);
  showSeat(me);
  showChoices(me);
  showEntry(me);
  if (!document.querySelector("dialog") && !$("answers").contains(document.activeElement)) showAnswers(me);
}

/** Shows, as the heading of the page, what the candidate has to do and by when. */
function showTitle(who) {
  const { seat, state, end, special } = who;
  const kind = special?.row ? "special" : situation(who);
  const isLate = end !== null && end <= serverTime();
  const given = {
    seat: (special?.row ?? seat).programme && seatName((special?.row ?? seat).programme),
    hasSpecial: Boolean(special),
    lists: who.lists,
    by: end !== null && !isLate ? moment(end) : null,
    isLate,
    isLast: isLast(who),
    isSame: isLast(who) || Boolean(who.choices && hasFirst(who)),
    window: state.now,
    round: state.published,
    choice: CHOICES[seat.standing]?.name,
  };
  $("title").textContent = STATE.title[kind](given);
  const at = kind === "offered" && who.choices ? who.choices.programmes.indexOf(seat.programme) + 1 : 0;
  show(
    $("lead"),
    who.move && given.seat && el("p", { class: "say good" }, STATE.moved(who.move.from, who.move.to, heldName(who.move))),
    [...STATE.lead[kind](given), at > 0 && STATE.first(at)].filter(Boolean).join(" "),
    who.lists && !who.lists.isOver && [el("p", {}, el("a", { class: "button", href: SEAT.listsPage }, SEAT.listsLink)), el("p", { class: "hint" }, SEAT.listsDoor)],
    kind === "offered" && end === null && ANSWER.noEnd,
    hasReasons(who) && el("p", {}, el("a", { id: "to-why", href: "#why-title", on: { click: toReasons } }, LABELS.whyTitle)),
    ["early", "earlyEmpty", "waitingEmpty"].includes(kind) && el("div", { id: "lead-contact" }),
  );
  if ($("lead-contact")) showContact($("lead-contact"), HELP.ask, HELP.unknown);
  // who is out, or admitted, has nothing to do by then
  showEnd($("closes"), state, ["withdrawn", "noshow"].includes(kind) ? null : end, LEFT);
}

/** Names the seat of the round before: by its name, or where that would push the answers from the first screen, by its number on the list. */
function heldName({ from, held }) {
  const name = seatName(held);
  return name.length > MOST_HELD ? SEAT.choice(from) : name;
}

/** Looks in the lists of the round before where the candidate was, and says it if that was lower on the list. */
async function seekMove(who) {
  const { seat, state, answers, choices } = who;
  const had = state.published > 1 && seat.programme && answers.answers.some((it) => it.window < state.now);
  if (!had || who.moveOf === state.published) return;
  for (const code of heldBefore(choices.programmes, seat.programme).slice(0, MOST_LISTS)) {
    const got = await askList(state.published - 1, code, how(who));
    if (who !== me || got.body?.reply !== "list") return;
    if (!new RegExp(`^${who.cand} [A-Z-]$`, "m").test(got.body.text)) continue;
    const move = moved(choices.programmes, code, seat.programme);
    who.moveOf = state.published;
    if (!move) return;
    who.move = { ...move, held: code };
    showTitle(who);
    showSeat(who);
    return;
  }
}

/** Looks after the end, for a candidate without an admission, what a special round gave, or until when the board takes lists for one. */
async function seekSpecial(who) {
  if (!isOver(who) || who.seat.programme || who.special) return;
  const [text, end] = await Promise.all([paper("special-round.txt"), listsEnd()]);
  if (who !== me || (!text && end === null)) return;
  who.lists = text ? null : { by: moment(end), isOver: end <= serverTime() };
  try {
    const row = text && readSpecial(text).find((it) => it.id === who.cand);
    if (text) who.special = { row: row && { programme: row.code, step: row.step } };
  } catch {
    return;
  }
  showTitle(who);
  showSeat(who);
}

function showSeat(who) {
  const { cand, state, entry, choices, special } = who;
  const seat = special?.row ?? who.seat;
  const rows = [[SEAT.fields.candidate, cand]];
  if (who.application) rows.push([SEAT.fields.application, who.application]);
  const field = special?.row ? SEAT.fields.special : isOver(who) ? SEAT.fields.final : SEAT.fields.seat;
  if (seat.programme) {
    const at = choices ? choices.programmes.indexOf(seat.programme) + 1 : 0;
    const list = programmeOf(seat.programme)?.list;
    const place = entry && list && readPlace(entry.places[list - 1]);
    rows.push([field, el("strong", {}, seatName(seat.programme))]);
    if (instituteOf(seat.programme)) rows.push([SEAT.fields.institute, instituteName(instituteOf(seat.programme))]);
    rows.push([SEAT.fields.kind, kindOfSeat(seat.step, 1)]);
    if (at) rows.push([SEAT.fields.choice, SEAT.choice(at)]);
    if (who.move) rows.push([SEAT.fields.before, SEAT.before(who.move.from, seatName(who.move.held))]);
    if (place) rows.push([SEAT.fields.place(listName(list)), ENTRY.place(shownPlace(list, place.place), place.isCommon, entry.category)]);
    if (seat.round) rows.push([SEAT.fields.round, seat.round]);
  } else rows.push([field, SEAT.none]);
  rows.push([SEAT.fields.standing, standing(who)]);
  $("letter-button").hidden = !who.seat.programme;
  offerApplication(who);
  show($("seat"), facts(rows), seat.step === "D" && el("p", {}, el("strong", {}, NOT_DISABILITY)), phase(state).join(" "), ownReplies(who, who.seat, state));
}

const facts = (rows) => el("dl", { class: "facts" }, rows.map(([name, fact]) => el("div", {}, el("dt", {}, name), el("dd", {}, fact))));

/** How the candidate is. After the last cut the office still says `float`, although the admission is final. */
function standing(who) {
  const { seat, special, choices } = who;
  if (isOver(who) && seat.programme) return SEAT.final;
  if (special?.row) return SEAT.bySpecial;
  if (isOver(who)) return [seat.standing === "waiting" ? SEAT.noAdmission : STANDINGS[seat.standing], special ? SEAT.noSpecial : who.lists ? "" : SEAT.special].join(" ").trim();
  if (seat.standing === "waiting" && choices?.programmes.length === 0) return SEAT.noList;
  return isLast(who) && STAYS.includes(seat.standing) ? SEAT.lastKept : STANDINGS[seat.standing];
}

/** Shows the entry in the register: open until round 1 is published, since an error can be mended until then, and folded later. */
function showEntry(who) {
  const { entry, state } = who;
  const isEarly = state.published === 0;
  const places = entry.places.map((it, at) => [at + 1, readPlace(it)]).filter(([, it]) => it);
  const rows = [[ENTRY.fields.category, CATEGORIES[entry.category] ?? entry.category], [ENTRY.fields.traits, heldWords(entry.traits)], ...places.map(([list, it]) => [ENTRY.fields.place(listName(list)), ENTRY.place(shownPlace(list, it.place), it.isCommon, entry.category)])];
  const joined = places.map(([list, it]) => [entry.places[list - 1], shownPlace(list, it.place)]).filter(([, it]) => it.isJoined);
  const parts = [facts(rows), places.length === 0 && ENTRY.nowhere, ...joined.map(([text, it]) => el("p", { class: "hint" }, ENTRY.joined(text, it))), ownReplies(who, entry), details(ENTRY.seen, ...paragraphs(ENTRY.public))].filter(Boolean).map((it) => (typeof it === "string" ? el("p", {}, it) : it));
  if (isEarly) show($("entry"), el("p", { class: "say" }, ENTRY.check), ...parts);
  else if (!$("entry").querySelector("details[open]")) show($("entry"), ENTRY.later, details(ENTRY.open, ...parts));
}

const heldWords = (traits) => [...traits].map((it) => HOLDS[it] ?? it).join(", ") || HOLDS_NOTHING;

/** Asks the office again. What is new is said by the heading, so somebody who has scrolled down is led there. */
async function looksAgain() {
  const before = $("title").textContent;
  if ((await load(me)) && $("title").textContent !== before) $("title").focus();
}

/** Looks by itself whether what is shown still holds, and says it if it does not. */
async function lookWhile() {
  const who = me;
  if (!who?.answers || document.querySelector("dialog") || $("main").getAttribute("aria-busy") === "true") return;
  const got = await ask(`seat/${who.cand}`, how(who));
  if (who !== me || got.body?.reply !== "seat" || lineOf(got.body) === lineOf(who.seat)) return;
  say($("said"), "bad", SEAT.changed);
}

// ---- the answer

const hasFirst = ({ seat, choices }) => seat.programme !== null && choices.programmes[0] === seat.programme;

/** What decides the sentences about answers of this candidate. */
function aboutAnswers(who) {
  const { seat, choices } = who;
  const higher = seat.programme ? choices.programmes.slice(0, choices.programmes.indexOf(seat.programme)) : [];
  const institute = instituteOf(seat.programme);
  const same = institute ? higher.filter((code) => instituteOf(code) === institute) : null;
  const listed = (code) => ({ at: choices.programmes.indexOf(code) + 1, name: seatName(code) });
  return { seat: seat.programme && seatName(seat.programme), isLast: isLast(who), isSame: isLast(who) || hasFirst(who), higher: higher.map(listed), same: same?.map(listed) };
}

/** Shows the answers that the office takes now: one line each, what each means folded, and a withdrawal folded behind them. */
function showAnswers(who) {
  const { seat, state } = who;
  const { open, left, turns } = openNow(seat, state, who.answers.answers);
  const about = aboutAnswers(who);
  const keeping = open.filter((it) => it !== "withdraw");
  const isFull = turns >= MOST_TURNS;
  // where all of them only keep the seat, one button is enough, and none if there is an answer already
  const isOne = keeping.length > 0 && about.isSame;
  const isAsked = seat.standing === "offered" && !isFull;
  const closed = seat.programme && open.length && !isFull && !isOne ? ALL_CHOICES.filter((it) => !open.includes(it)) : [];
  who.turns = turns;
  $("answer-part").hidden = open.length === 0 && !$("receipt").hasChildNodes();
  $("answer-title").textContent = isAsked ? (isOne ? ANSWER.confirm : ANSWER.question) : isOne ? ANSWER.noNeed : keeping.length ? ANSWER.change : ANSWER.withdrawOnly;
  $("answer-title").hidden = open.length === 0;
  show(
    $("answers"),
    isOne && isAsked && answerList(keepButton(who, about)),
    keeping.length > 0 && !isOne && answerList(...keeping.map((it) => answerButton(who, it, about))),
    keeping.length > 0 && !isOne && details(ANSWER.details, ...keeping.flatMap((it) => [el("h3", {}, CHOICES[it].name), ...paragraphs(CHOICES[it].does(about), Infinity)]), el("p", {}, ANSWER.narrow(state.now))),
    closed.map((it) => el("p", { class: "hint" }, ANSWER.closed(it, CHOICES[left]?.name ?? left))),
    seat.programme && open.length > 0 && turns > 0 && el("p", { class: "hint" }, isFull ? ANSWER.full : ANSWER.used(turns)),
    isOne && sameAnswers(who, isAsked ? keeping.slice(1) : keeping, about),
    open.includes("withdraw") && leaving(who, about),
  );
}

const answerList = (...buttons) => el("ul", { class: "answers" }, buttons.map((it) => el("li", {}, it)));

/** The one button where all answers only keep the seat. It sends the first of them. */
const keepButton = (who, about) =>
  button([el("strong", {}, ANSWER.keepSeat), " ", el("span", { id: "line-freeze" }, ANSWER.keepLine(about))], () => answer(who, "freeze", true), { id: "answer-freeze", class: "answer one", "aria-describedby": "line-freeze", "data-choice": "freeze" });

/** The answers that mean the same, folded: somebody may want the one of which they have heard. */
const sameAnswers = (who, same, about) => same.length > 0 && details(ANSWER.same(same.map((it) => CHOICES[it].name)), answerList(...same.map((it) => answerButton(who, it, about))));

function answerButton(who, choice, about) {
  const [name, line, now] = [`name-${choice}`, `line-${choice}`, `now-${choice}`];
  const isNow = choice === who.seat.standing;
  const inside = [el("strong", { id: name }, CHOICES[choice].name), el("span", { id: line }, CHOICES[choice].line(about)), isNow && el("em", { id: now }, ANSWER.now)];
  return button(inside, () => answer(who, choice), { id: `answer-${choice}`, class: isNow ? "answer now" : "answer", "aria-labelledby": name, "aria-describedby": isNow ? `${line} ${now}` : line, "data-choice": choice });
}

/** What a withdrawal is, and its button, behind a line that has to be opened. */
function leaving(who, about) {
  const press = button(CHOICES.withdraw.name, () => answer(who, "withdraw"), { id: "answer-withdraw", class: "grave", "aria-describedby": "line-withdraw", "data-choice": "withdraw" });
  return details(about.seat ? ANSWER.leave : ANSWER.leaveSeason, el("div", { id: "line-withdraw" }, paragraphs(CHOICES.withdraw.does(about))), el("p", {}, press));
}

/** Says until when the next answer may be changed: after the last that the office takes in a window, nothing but a withdrawal is left. */
const untilWords = ({ turns, end, state }) => turns + 1 < MOST_TURNS && ANSWER.until(end !== null && end > serverTime() ? moment(end) : null, state.now);

async function answer(who, choice, keeps = false) {
  // the question names programmes by their names, if these come soon
  await Promise.race([papersCome(), new Promise((then) => setTimeout(then, NAMES_WAIT))]);
  if (who !== me) return;
  const about = aboutAnswers(who);
  const isGrave = choice === "withdraw";
  const lines = [!isGrave && ANSWER.seat(about.seat), ...(keeps ? ANSWER.keepDoes(about) : CHOICES[choice].does(about)), !isGrave && untilWords(who)];
  const yes = await confirmed({ title: keeps ? ANSWER.keepSure : ANSWER.sure(choice), lines, yes: keeps ? ANSWER.keepYes : CHOICES[choice].yes, grave: isGrave, tick: isGrave ? ANSWER.sureTick(about.seat) : null });
  if (yes && who === me) await send(who, { cand: who.cand, window: who.state.now, turn: who.turns + 1, choice });
}

/** Sends an answer and shows its receipt. The page never sends an answer with another turn by itself. */
async function send(who, body) {
  const out = $("receipt");
  for (const it of $("answers").querySelectorAll("button")) it.disabled = true;
  who.receipt = null;
  say(out, "plain", ANSWER.sending);
  // the number in the address is for the log of the web server, which then says that this candidate pressed in time
  const got = await ask(`answer?cand=${who.cand}`, how(who, { body, waiting: () => who === me && say(out, "plain", ANSWER.sending, WAITING) }));
  if (who !== me) return;
  const sameAgain = el("p", {}, button(ANSWER.again, () => send(who, body), { class: "main" }));
  if (got.body?.reply === "noted") {
    who.receipt = got.body;
    who.receiptAt = serverTime();
    say(out, "good", ...receiptParts(who, got.body));
    showTitle({ ...who, seat: seatAfter(who.seat, body.choice) });
  } else if (got.passing) say(out, "bad", trouble(got), ANSWER.unknown, sameAgain);
  else say(out, "bad", trouble(got), [5, 8].includes(got.body?.refused) && ANSWER.other, ownWords(got));
  out.focus();
  if (got.passing || !(await load(who))) return;
  if (got.body?.refused === LATE) say(out, "bad", came(who), trouble(got), ownWords(got));
  out.focus();
}

/** Returns how a seat is after an answer that the office took: the heading says so together with the receipt, before the office is asked again. */
const seatAfter = (seat, choice) => (choice === "withdraw" ? { ...seat, programme: null, step: null, standing: "withdrawn" } : { ...seat, standing: choice });

/** What came while somebody answered too late. */
function came(who) {
  const name = who.seat.programme && seatName(who.seat.programme);
  return el("strong", {}, isOver(who) ? ANSWER.cameEnd(name) : ANSWER.cameRound(who.state.published, name));
}

function receiptParts(who, body) {
  const receipt = lineOf(body);
  const seat = who.seat.programme && seatName(who.seat.programme);
  const at = MOMENT(who.receiptAt);
  const facts = ANSWER.facts({ cand: who.cand, application: who.application, seat, at, body });
  const text = ANSWER.file(facts, `${receipt}\n${lineOf(who.seat)}`, location.origin);
  return [
    el("strong", {}, ANSWER.taken(body.choice)),
    ANSWER.when({ seat, at, body }),
    ANSWER.keep,
    verbatim(receipt),
    el("p", { class: "row" }, saveLink(ANSWER.save, ANSWER.fileName(body), text), button(ANSWER.print, () => print())),
  ];
}

/** Compares the receipt that is shown with the answers that the office has, and says it if a later one counts. */
function checkReceipt(who) {
  const last = who.answers.answers.at(-1);
  if (!who.receipt || !last || (last.window === who.receipt.window && last.turn === who.receipt.turn)) return;
  say($("receipt"), "bad", ANSWER.earlier(last.choice), verbatim(lineOf(who.receipt)));
}

// ---- receipts

function showReceipts(who) {
  const out = $("receipts");
  const all = receiptsOf(who.answers);
  if (!all.length) return show(out, RECEIPTS.none);
  const lines = all.map(lineOf);
  const cells = (it, at) => [RECEIPTS.window(it.window), it.turn, CHOICES[it.choice].name, el("code", { lang: "en" }, lines[at])];
  show(
    out,
    table(RECEIPTS.caption, RECEIPTS.columns, all.map(cells)),
    el("p", { class: "hint" }, RECEIPTS.noTimes),
    el("p", { class: "row" }, saveLink(RECEIPTS.save, RECEIPTS.fileName(who.cand), RECEIPTS.file(headOf(who), reading(who.answers), lines)), button(ANSWER.print, () => print())),
    ownReplies(who, who.answers),
  );
}

// ---- why not another programme

function showChoices(who) {
  const codes = who.choices?.programmes;
  if (!codes) return;
  const isEarly = who.state.published === 0;
  const isFirst = hasFirst(who);
  $("why-title").textContent = isEarly ? WHY.listTitle : LABELS.whyTitle;
  $("why-form").hidden = !hasReasons(who);
  $("why-title").className = hasReasons(who) ? "opens" : "";
  if (isFirst) return show($("choices"), WHY.first(seatName(who.seat.programme)));
  if (codes.length === 0) return show($("choices"), WHY.emptyList);
  const list = el("ol", { class: "list" }, codes.map((it) => el("li", {}, seatName(it))));
  show($("choices"), !isEarly && WHY.list, list);
}

/** Takes away the reasons of an earlier round, which say nothing of this one. */
function dropWhys(who) {
  who.whysOf = null;
  clear($("whys"), $("complaint"));
  say($("why-said"), "plain");
}

async function explainAll() {
  const who = me;
  dropWhys(who);
  who.papers = new Map();
  who.whysOf = who.state.published;
  await papersCome();
  if (who === me) await explainSome(who, 0);
}

/** Explains the next few programmes of the choice list. It ends at the seat: all below it are worse. */
async function explainSome(who, from) {
  const codes = who.choices.programmes;
  const round = who.whysOf;
  const until = Math.min(codes.length, from + AT_ONCE);
  const held = codes.indexOf(who.seat.programme);
  for (let at = from; at < until; at++) {
    const name = seatName(codes[at]);
    say($("why-said"), "plain", WHY.asking(name));
    const box = el("section", { class: "box" }, el("h3", {}, WHY.heading(at + 1, name, round)));
    const parts = await asking(who, () => explained(who, codes[at]));
    if (who !== me || who.whysOf !== round || parts === null) return;
    who.papers.set(codes[at], { ...who.papers.get(codes[at]), heading: WHY.heading(at + 1, name, round), says: sentencesOf(parts) });
    box.append(...parts.filter(Boolean).map((it) => (typeof it === "string" ? el("p", {}, it) : it)));
    $("whys").append(box);
    if (at === held) {
      if (at + 1 < codes.length) $("whys").append(el("p", {}, WHY.below(name)));
      return allExplained(who);
    }
  }
  allExplained(who);
  if (until === codes.length) return;
  const more = button(WHY.next(Math.min(AT_ONCE, codes.length - until)), () => {
    more.remove();
    return explainSome(who, until);
  });
  $("whys").append(more);
}

function allExplained(who) {
  say($("why-said"), "plain");
  showComplaint(button(WHY.save, () => saveAll(who)));
}

/** Shows what saves a complaint, and below it the way back from the end of the reasons. */
function showComplaint(...press) {
  const [to, words] = $("answer-part").hidden ? ["#title", WHY.toTop] : ["#answer-title", WHY.toAnswers];
  show($("complaint"), el("p", { class: "hint" }, WHY.saveHint), el("p", {}, press), el("p", {}, el("a", { href: to }, words)));
}

/** Puts all that a complaint needs into one file: what the page says, what it was told, and the lists of the programmes that refused. */
async function saveAll(who) {
  const round = who.state.published;
  for (const [code, found] of who.papers) {
    if (!found.cutoffs || found.list) continue;
    const got = await askList(round, code, how(who));
    if (who !== me) return;
    found.list = got.body?.text;
  }
  const text = complaintText(who, round, [...who.papers.values()].filter((it) => it.says));
  showComplaint(...saveLink(WHY.save, WHY.fileName(who.cand, round), text));
  $("complaint").querySelector("a").click();
}

/** The sentences and pictures for one programme. */
async function explained(who, code) {
  const got = await ask(`why/${who.cand}/${code}`, how(who));
  if (got.body?.reply === "refused" && ![UNKNOWN, DENIED].includes(got.body.refused)) return [trouble(got), ownWords(got)];
  if (got.body?.reply !== "why") throw new NoAnswer(got);
  const { text } = got.body;
  who.papers.set(code, { why: text });
  const own = () => ownTexts(who, OWN.why(seatName(code), who.state.published), text);
  let why;
  try {
    why = readWhy(text);
  } catch {
    return [WHY.unread, own()];
  }
  if (why.kind === "admitted") return [WHY.admitted(who.state.published, why.detail), WHY.gone[who.seat.standing], own()];
  if (why.kind === "better") return [WHY.better(seatName(why.detail)), own()];
  if (why.kind === "notsought") return [...WHY.notsought(who.state.published), own()];
  return refusedParts(who, code, why, text);
}

/** What a refusal says: that it is one, how far the candidate's place is from the cutoffs, of which the nearest decides it, and then the office's reasons in the same order. */
async function refusedParts(who, code, why, text) {
  const got = await askCutoffs(who.state.published, code, how(who));
  who.papers.get(code).cutoffs = got.body?.text;
  const line = (it) => (it.seats === 0 ? WHY.noSeats : it.worse ? WHY.worseYes(it.seats, othersAt(who, code, it.name)) : WHY.worseNo(it.seats));
  // kinds of seats that the programme does not have are in the office's own words alone, unless there is no other
  const withSeats = why.steps.filter((it) => it.seats > 0);
  const far = farFrom(who, code, got);
  const at = (it) => far?.steps?.findIndex((one) => one.step === it.name) ?? 0;
  const reasons = [...(withSeats.length ? withSeats : why.steps)].sort((one, other) => at(one) - at(other)).map((it) => el("li", {}, el("strong", {}, `${kindOfSeat(it.name, it.seats)}: `), line(it)));
  const hasD = withSeats.some((it) => it.name === "D");
  return [
    el("p", {}, el("strong", {}, WHY.refused)),
    ...comparison(got, far, withSeats.map((it) => it.name)),
    ...(reasons.length ? [WHY.considered, el("ul", {}, reasons)] : [WHY.nowhere]),
    hasD && el("p", {}, el("strong", {}, NOT_DISABILITY)),
    lazyDetails(WHY.seats(seatName(code)), () => seatsOf(who, code, why, far)),
    far?.all.length > 0 && details(WHY.allCutoffs, linesList(far.all)),
    ownTexts(who, OWN.refused(seatName(code), who.state.published), text, got.body?.text),
  ];
}

/** How far the candidate's place is from the cutoffs of a programme that refused the candidate: the merit list and the place that count there, or null where the page does not know
 * them, and the steps, the nearest first. Returns null where there are no cutoffs that can be read. The programme's own merit list is in the published programmes. Without them the
 * page compares if the candidate has a place in one list alone. */
function farFrom(who, code, got) {
  const places = who.entry.places.map(readPlace);
  const held = places.filter(Boolean);
  const list = programmeOf(code)?.list ?? (held.length === 1 ? places.findIndex(Boolean) + 1 : null);
  const place = list && places[list - 1];
  try {
    const lines = readCutoffs(got.body.text).lines.map((it) => ({ ...it, ...shownPlace(list, it.place) }));
    const all = bySteps(lines);
    if (!place) return { list: null, all, steps: bySteps(heldOf(lines, who.entry.traits)).filter((it) => isFor(it.step, who.entry.category)) };
    const own = shownPlace(list, place.place);
    return { list, place, own, all, steps: byNearness(compared(lines, who.entry, place)).map((it) => ({ ...it, own })) };
  } catch {
    return null;
  }
}

// the seats of another category are for its members alone
const isFor = (step, category) => ["OPEN", "D", category].includes(step);

/** The sentences on how far a place is from the cutoffs, at the steps that have seats or cutoffs: first the one that decides. */
function comparison(got, far, withSeats) {
  if (got.body?.reply !== "cutoffs") return [trouble(got)];
  if (!far) return [WHY.noCutoffs];
  if (!far.list) return [WHY.whichPlace, linesList(far.steps)];
  const steps = far.steps.filter((it) => it.lines.length || withSeats.includes(it.step));
  const [first, ...others] = steps.map((it) => WHY.compare(it));
  const isWithin = far.steps.some((it) => it.isWithin);
  const before = steps.find((it) => it.best && !it.isWithin && it.best.of !== it.own.of);
  return [
    WHY.counts(far.own, listName(far.list)),
    first && el("p", { class: "far" }, el("strong", {}, first)),
    before && WHY.before(before.best, before.own, rankListsOf(far.list)[0]?.name),
    others.length > 0 && !isWithin && WHY.further,
    others.length > 0 && el("ul", { class: "far" }, others.map((it) => el("li", {}, it))),
    !far.place.isCommon && WHY.relaxed,
    isWithin ? el("p", { class: "say bad" }, WHY.within) : el("p", {}, WHY.cutoffsAre),
  ];
}

const linesList = (steps) => el("ul", {}, steps.map((it) => el("li", {}, WHY.line(it))));

/** The seats of a programme with the places of who has them, and what its list alone settles of a refusal. */
async function seatsOf(who, code, why, far) {
  const [got, places] = await Promise.all([askList(who.state.published, code, how(who)), askPlaces(who.state.published, code, instituteOf(code))]);
  if (got.body?.reply !== "list") return [trouble(got), ownWords(got)];
  const programme = programmeOf(code);
  const own = programme && readPlace(who.entry.places[programme.list - 1]);
  const lists = programme ? rankListsOf(programme.list).map((it) => it.name) : [];
  // the seats of another category are for its members alone, so no place is compared there
  const stoodFor = (step) => why.steps.some((it) => it.name === step);
  const placeOf = (cand, step) => own && placeWords(programme.list, places?.get(cand), stoodFor(step) ? own : null);
  try {
    const list = readList(got.body.text);
    const checked = why.steps.filter((it) => it.seats > 0).map((it) => el("li", {}, found(who, list, programme, it, far)));
    return [
      programme && checked.length > 0 && WHY.checked,
      programme && el("ul", {}, checked),
      own && places && WHY.yours(shownPlace(programme.list, own.place)),
      own && places && lists.length > 0 && el("p", { class: "hint" }, IN_ORDER(lists)),
      !places && el("p", { class: "hint" }, WHY.noPlaces),
      listPicture(list, got.body.text, programme, { cand: who.cand, traits: who.entry.traits }, placeOf),
    ];
  } catch {
    return [WHY.noList, verbatim(got.body.text)];
  }
}

/** The words for the published place of somebody with a seat, and whether it is better than one's own where that is compared; or null where it is not published. */
function placeWords(list, text, own) {
  const its = readPlace(text);
  if (!its) return null;
  return SEATS.place(publishedPlace(list, its.place), own && own.place !== its.place ? its.place < own.place : null);
}

/** The traits that a candidate does not hold, of those for which seats of a step are protected; none where the board has not published the programmes. */
function othersAt(who, code, name) {
  const protect = programmeOf(code)?.steps[name]?.protect ?? {};
  return Object.keys(protect).filter((it) => protect[it] > 0 && !who.entry.traits.includes(it));
}

/** What the list of a programme settles for this candidate at one step. */
function found(who, list, programme, { name, seats, worse }, far) {
  const { verdict, by } = settledByList(list.steps.find((it) => it.name === name), programme.steps[name]?.protect ?? {}, who.entry.traits, worse);
  const key = by.key === "notrait" && who.entry.traits === "" ? "traitless" : by.key;
  const isWithin = far?.list ? Boolean(far.steps.find((it) => it.step === name)?.isWithin) : null;
  return [el("strong", {}, `${kindOfSeat(name, seats)}: `), SETTLED[verdict], SETTLED.by[key]?.(seats, { by, held: who.entry.traits, isWithin }) ?? LIST_FAULTS[key](by)];
}

// ---- the letter

/** Shows the letter on the screen, in place of all else, with what can be done with it: not every phone has a printer. */
async function openLetter() {
  const who = me;
  if (!(await load(who))) return;
  await papersCome();
  if (who !== me) return;
  say($("application-said"), "plain");
  await fillLetter(who);
  if (who !== me) return;
  document.documentElement.dataset.view = "letter";
  $("letter-view").hidden = false;
  $("letter-view").focus();
  scrollTo(0, 0);
}

async function fillLetter(who) {
  await showLetter($("letter"), who, standing(who), isOver(who));
  if (who !== me) return clear($("letter"));
  const name = LETTER.fileName(who.cand, isOver(who) ? "final" : `round-${who.state.published}`);
  show($("letter-said"), who.move && el("p", { class: "say good" }, LETTER.replaces(who.state.published, seatName(who.move.held))));
  $("letter-save").replaceChildren(...saveLink(LETTER.save, name, letterFile($("letter"), isOver(who)), "text/html"));
}

function hideLetter() {
  delete document.documentElement.dataset.view;
  $("letter-view").hidden = true;
  say($("application-said"), "plain");
  clear($("letter"), $("letter-said"), $("letter-save"));
}

function closeLetter() {
  hideLetter();
  $("letter-button").focus();
}

onSend($("sign-in"), signIn);
onSend($("why-form"), explainAll);
// the heading is what people tap; the button below it is for the keyboard
$("why-title").addEventListener("click", () => me && !$("why-form").hidden && !$("whys").hasChildNodes() && $("why-form").requestSubmit());
onPress($("refresh"), looksAgain);
onPress($("letter-button"), openLetter);
onPress($("letter-print"), () => print());
onPress($("letter-close"), closeLetter);
onSend($("application-form"), addApplication);
onPress($("sign-out"), () => leave("asked"));
canBeShown($("token"), $("show-token"));
countSigns($("token"), $("token-count"), grouped);
askBeforeLeaving(() => isIn() && !carries);
leaveInTime(leave, isIn);
addEventListener("pageshow", (event) => event.persisted && comesBack());
lookAgain(lookWhile);
ready();
comesBack();
showNotice($("notice"));
showDoor();
showContact($("lost"), HELP.lost, HELP.nobody);
showContact($("contact"));
