/** The page of the clerk: the state, closing a window, adding seats, and a candidate's seat. */
import { ask, askCounts, askList, serverTime } from "../ask.js";
import { $, askBeforeLeaving, busy, button, canBeShown, clear, closeQuestions, confirmed, countSigns, details, dropLinks, el, emptyToken, onPress, onSend, ownWords, ready, saveLink, say, sayFault, show, ungrouped, valueOf, valuesOf, verbatim } from "../dom.js";
import { grouped, isCandidate, isCode, isToken, lineOf, readList, STEPS as ALL_STEPS } from "../rule.js";
import { announcedEnd, papersCome, programmeName, showContact, showEnd, showState } from "../season.js";
import { leaveInTime, SignIn } from "../session.js";
import { ANSWER, ASKING, CATEGORIES, CLERK, kindOfSeat, LATER, NOT_DISABILITY, OWN_WORDS, trouble, WAITING } from "../words.js";

// No season has this window. The office refuses its cut: by 7 for the clerk, and by 3 for everybody else. So nothing is cut.
const NO_WINDOW = 65535;
const [DENIED, LATE, AHEAD] = [3, 6, 7];
// a cut makes a round, which takes a while with many candidates
const CUT_SECONDS = 90;
const MOST_SEATS = 4000;
let me = null;
let season = null;

const how = (who, more = {}) => ({ token: who.token, signal: who.signal, ...more });

// ---- signing in and out

async function signIn() {
  say($("said"), "plain");
  const token = valueOf($("token"), isToken, "token", ungrouped);
  if (!token) return;
  forget();
  const who = (me = new SignIn(token, { receipts: [] }));
  say($("said"), "plain", ASKING);
  const got = await ask("cut", how(who, { body: { window: NO_WINDOW } }));
  if (who !== me) return;
  if (got.body?.refused !== AHEAD) return stopped(got);
  emptyToken($("token"), $("show-token"));
  say($("said"), "plain");
  $("signed-in").textContent = CLERK.signedIn;
  $("door").hidden = true;
  $("desk").hidden = false;
  await look();
  if (who === me) $("cut-title").focus();
}

function forget() {
  me?.forget();
  me = null;
  closeQuestions();
  dropLinks();
  for (const it of ["cut-said", "raise-said", "seat-said"]) say($(it), "plain");
  for (const it of ["programme", "seats", "candidate"]) $(it).value = "";
  clear($("counts"), $("receipts"), $("keep"));
  $("kept").hidden = true;
  $("desk").hidden = true;
  $("door").hidden = false;
}

function leave(cause) {
  const was = me !== null;
  forget();
  emptyToken($("token"), $("show-token"));
  say($("said"), "plain", was && CLERK.left[cause]);
  if (cause === "asked") $("token").focus();
}

/** Says that the sign-in failed. What was typed stays in its field, so that a slip can be mended. */
function stopped(got) {
  const denied = got.body?.refused === DENIED;
  forget();
  say($("said"), "bad", denied ? CLERK.denied : trouble(got), got.passing && LATER, ownWords(got));
  if (denied) sayFault($("token"), "slip");
  $(denied ? "token" : "said").focus();
}

// ---- the state

async function look() {
  season = (await showState($("state"))) ?? season;
  if (!season) return;
  const end = await announcedEnd(season);
  showEnd($("closes"), season, end);
  $("hour").textContent = CLERK.clock(serverTime());
  $("no-end").hidden = end !== null || season.now > season.rounds;
  const over = season.now > season.rounds;
  const last = season.now >= season.rounds;
  show($("cut"), ...(over ? [CLERK.over] : [...CLERK.closes(season), el("p", {}, button(CLERK.close(season.now), cut, { class: "grave", id: "do-cut" }))]));
  $("raise").hidden = last;
  $("no-raise").hidden = !last;
  $("no-raise").textContent = CLERK.noRaise;
  if (me) await showCounts(me);
}

/** Shows how many seats of the open window are without any answer, where the web server tells it. */
async function showCounts(who) {
  const counts = await askCounts(how(who));
  if (who !== me) return;
  const isNow = counts?.window === season.now && [counts.seats, counts.unanswered].every(Number.isSafeInteger);
  show($("counts"), isNow && el("p", { class: "say" }, CLERK.counts(counts, counts.at)), isNow && Array.isArray(counts.who) && counts.who.length > 0 && silent(counts));
}

/** Who has not answered, as a list that can be saved. */
function silent({ window, who }) {
  const numbers = who.filter(Number.isSafeInteger);
  const text = `${numbers.join("\n")}\n`;
  return details(CLERK.who(numbers.length), verbatim(text), el("p", {}, saveLink(CLERK.whoSave, CLERK.whoFile(window), text)));
}

// ---- closing the window

async function cut() {
  const who = me;
  const { now } = season;
  const end = await announcedEnd(season);
  const isEarly = end !== null && serverTime() < end;
  const lines = [...(isEarly ? [CLERK.early(end)] : []), ...CLERK.sure(season)];
  const yes = await confirmed({ title: CLERK.sureTitle(now), lines, yes: CLERK.sureYes, grave: true, type: isEarly ? CLERK.sureEarly(now) : CLERK.sureType(now) });
  if (yes && who === me) await sendCut(who, { window: now });
}

async function sendCut(who, body) {
  const out = $("cut-said");
  $("do-cut").disabled = true;
  say(out, "plain", CLERK.cutting);
  const got = await ask("cut", how(who, { body, seconds: CUT_SECONDS, waiting: () => who === me && say(out, "plain", CLERK.cutting, WAITING) }));
  if (who !== me) return;
  if (["published", "final"].includes(got.body?.reply)) {
    keep(who, got.body);
    say(out, "good", CLERK[got.body.reply](got.body), verbatim(lineOf(got.body)));
  } else if (got.passing) say(out, "bad", trouble(got), CLERK.unknownCut, el("p", {}, button(CLERK.again, () => sendCut(who, body), { class: "main" })));
  else say(out, "bad", trouble(got), [LATE, AHEAD].includes(got.body?.refused) && CLERK.otherClerk, ownWords(got));
  out.focus();
  if (!got.passing) await look();
}

// ---- adding seats

async function raise() {
  const who = me;
  const isSeats = (it) => /^[1-9][0-9]{0,3}$/.test(it) && Number(it) <= MOST_SEATS;
  const [programme, seats] = valuesOf([$("programme"), isCode, "code"], [$("seats"), isSeats, "seats"]) ?? [];
  if (!programme) return;
  const body = { window: season.now, programme, step: $("step").value, seats: Number(seats) };
  const before = await seatsBefore(who, body);
  if (who !== me) return;
  const shown = { ...body, programme: programmeName(programme) };
  const yes = await confirmed({ title: CLERK.raiseTitle(shown), lines: CLERK.raiseLines(shown, before), yes: CLERK.raiseYes });
  if (yes && who === me) await sendRaise(who, body);
}

/** Returns the seats of the step in the last round, or null where no list says it. */
async function seatsBefore(who, { programme, step }) {
  if (season.published === 0) return null;
  const got = await askList(season.published, programme, how(who));
  try {
    return readList(got.body.text).steps.find((it) => it.name === step).seats;
  } catch {
    return null;
  }
}

async function sendRaise(who, body) {
  const out = $("raise-said");
  say(out, "plain", CLERK.raising);
  const got = await ask("raise", how(who, { body, waiting: () => who === me && say(out, "plain", CLERK.raising, WAITING) }));
  if (who !== me) return;
  if (got.body?.reply === "raised") {
    keep(who, got.body);
    say(out, "good", CLERK.raised({ ...got.body, programme: programmeName(got.body.programme) }), verbatim(lineOf(got.body)));
  } else if (got.passing) say(out, "bad", trouble(got), CLERK.unknownRaise, el("p", {}, button(CLERK.again, () => sendRaise(who, body), { class: "main" })));
  else say(out, "bad", trouble(got), ownWords(got));
  out.focus();
  if (!got.passing) await look();
}

// ---- a candidate's seat

async function showSeat() {
  const who = me;
  const out = $("seat-said");
  say(out, "plain");
  const candidate = valueOf($("candidate"), isCandidate, "candidate");
  if (!candidate) return;
  say(out, "plain", ASKING);
  const got = await ask(`seat/${candidate}`, how(who));
  if (who !== me) return;
  if (got.body?.reply !== "seat") return say(out, "bad", trouble(got), ownWords(got));
  const { body } = got;
  say(out, "plain", CLERK.seat(body, programmeName(body.programme)), body.step === "D" && el("p", {}, el("strong", {}, NOT_DISABILITY)), CLERK.standing[body.standing], details(OWN_WORDS, verbatim(lineOf(body))));
}

// ---- receipts

/** Adds a receipt to those of this sign-in, each once. */
function keep(who, body) {
  const line = lineOf(body);
  if (!who.receipts.includes(line)) who.receipts.push(line);
  const text = `${who.receipts.join("\n")}\n`;
  dropLinks();
  $("receipts").textContent = text;
  $("keep").replaceChildren(...saveLink(CLERK.save, CLERK.fileName, text), button(ANSWER.print, () => print()));
  $("kept").hidden = false;
}

$("step").append(...ALL_STEPS.filter((it) => it !== "D").map((it) => el("option", { value: it }, CATEGORIES[it] ?? kindOfSeat(it))));
onSend($("sign-in"), signIn);
onSend($("raise"), raise);
onSend($("seat"), showSeat);
onPress($("refresh"), look);
onPress($("sign-out"), () => leave("asked"));
canBeShown($("token"), $("show-token"));
countSigns($("token"), $("token-count"), grouped);
askBeforeLeaving(() => !$("desk").hidden);
leaveInTime(leave, () => !$("desk").hidden);
ready();
papersCome();
showContact($("contact"));
busy(look);
