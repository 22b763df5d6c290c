/** What all pages show of the season: how far it is, when its window closes, the office's notice, and its programmes where they are published. */
import { askState, freshPaper, jsonPaper, serverTime } from "./ask.js";
import { details, el, offerCodes, ownWords, say, show, verbatim } from "./dom.js";
import { withPhones } from "./phone.js";
import { placeOf, rankAt, rankLists } from "./ranks.js";
import { lineOf } from "./rule.js";
import { ASKING, called, CLOSES, ENTRY, HELP, NOTICE, OWN_WORDS, named, phase, trouble, WAITING } from "./words.js";

const HALF_MINUTE = 30_000;
// how often an open page looks whether the season has moved on: seldom, since many pages are open
const EVERY = 5 * 60_000;
const AT_LEAST = 60_000;

let coming = null;
let known = new Map();
let names = { programmes: new Map(), short: new Map(), institutes: new Map(), lists: new Map(), ranks: new Map(), titles: [] };
// the names in every language, since people type them as another page or a letter has them
let everyName = [];
const LANGUAGES = ["hi"];

async function fetchPapers() {
  const [season, found] = await Promise.all([jsonPaper("programmes.json"), jsonPaper("names.json")]);
  if (Array.isArray(season?.programmes)) known = new Map(season.programmes.map((it) => [it.code, it]));
  if (found) {
    // a name in the language of the page, where the papers have one
    const both = (it) => new Map([...textsOf(found[it]), ...textsOf(found[document.documentElement.lang]?.[it])]);
    const [programmes, short, institutes, lists] = ["programmes", "short", "institutes", "lists"].map(both);
    names = { programmes, short, institutes, lists, ranks: rankLists(both("ranks")), titles: ["board", "season"].map((it) => titleOf(found, it)) };
    everyName = [found, ...LANGUAGES.map((it) => found[it] ?? {})].map((part) => ({ own: ["programmes", "short"].map((it) => textsOf(part[it])), institutes: textsOf(part.institutes) }));
  }
  // what is not published yet, or did not arrive, may come later
  if (known.size === 0) coming = null;
  offerCodes(allCodes().map((code) => [code, seatName(code)]));
}

/** Returns a title of a paper in the language of the page, and otherwise in English; undefined where the paper has none. */
function titleOf(found, name) {
  const { lang } = document.documentElement;
  return [[found[lang]?.[name], lang], [found[name], "en"]].map(([text, language]) => ({ text, lang: language })).find((it) => typeof it.text === "string");
}

/** The texts of a part of a paper by their codes. A code may be any word, so they are in a map. */
const textsOf = (part) => new Map(Object.entries(part ?? {}).filter(([, text]) => typeof text === "string"));

/** Fetches the papers about programmes and their names, until they are here. They can be large, so a page asks when it has shown what matters more. */
export const papersCome = () => (coming ??= fetchPapers());

/** Returns the published programme with a code, or undefined where it is not known, or not yet. */
export const programmeOf = (code) => known.get(code);
export const instituteOf = (code) => known.get(code)?.institute;

/** Returns a programme or an institute as people know it: by name and code where the name is published, and else by its code. */
export const programmeName = (code) => named(names.programmes.get(code), code);
export const instituteName = (code) => named(names.institutes.get(code), code);

/** Returns a programme as people call it: by its short name, or by its name and its institute. */
export function seatName(code) {
  const name = names.programmes.get(code);
  return names.short.get(code) ?? (name ? called(name, names.institutes.get(instituteOf(code))) : code);
}

/** Returns the codes of all published programmes. */
export const allCodes = () => [...known.keys()];

/** Returns all texts by which people look for a programme: its code, its names and those of its institute in each language, and how the pages call it. */
export function textsOfProgramme(code, institute = instituteOf(code)) {
  const inLanguages = everyName.flatMap(({ own, institutes }) => [...own.map((it) => it.get(code)), institutes.get(institute)]);
  return [code, institute, seatName(code), programmeName(code), ...inLanguages].filter(Boolean);
}

/** Returns a merit list by its name, or by its number. */
export const listName = (number) => names.lists.get(String(number)) ?? ENTRY.list(number);

const nameOfRanks = (list, of) => of && (of.name ?? listName(list));

/** Returns the lists of ranks that a merit list is made of, the best first, each with its name; none where its places are ranks. */
export const rankListsOf = (list) => (names.ranks.get(list) ?? []).map((it) => ({ ...it, name: nameOfRanks(list, it) }));

/** Returns a place of a merit list as the candidate knows it: the rank, the name of its list of ranks, or null where the place is the rank, and whether the office writes it otherwise. */
export function shownPlace(list, place) {
  const { rank, of } = rankAt(names.ranks.get(list), place);
  return { rank, of: nameOfRanks(list, of), isJoined: rank !== place };
}

/** Returns a published place of somebody else in the same way. A list of ranks that is behind others and not relaxed is of persons with disabilities, and is not named: `behind` has the
 * list that it comes after. */
export function publishedPlace(list, place) {
  const all = names.ranks.get(list) ?? [];
  const { of } = rankAt(all, place);
  return of && of.first > 0 && !of.isRelaxed ? { rank: null, behind: nameOfRanks(list, all[all.indexOf(of) - 1]) } : shownPlace(list, place);
}

/** Returns the place of a rank that somebody has in one of the lists of ranks of a merit list, counted from 0, and whether it is relaxed; or null where the list has no such rank. */
export function placeOfRank(list, at, rank) {
  const all = names.ranks.get(list);
  if (!all) return { place: rank, isRelaxed: false };
  const place = placeOf(all, all[at], rank);
  return place && { place, isRelaxed: all[at].isRelaxed };
}

/** Returns whether a published programme uses a merit list; where none is published, each may be used. */
export const isUsed = (number) => known.size === 0 || [...known.values()].some((it) => it.list === number);

/** Returns who holds the season and what it is called, each with its language, or undefined where the papers do not say it. */
export const seasonTitles = () => [names.titles[0], names.titles[1]];

/** Shows the notice of the office where there is one. */
export async function showNotice(region) {
  const { lang } = document.documentElement;
  const own = lang === "en" ? null : await freshPaper(`notice.${lang}.txt`);
  const notice = own?.trim() ? own : await freshPaper("notice.txt");
  if (notice?.trim()) region.replaceChildren(el("aside", { class: "box", "aria-label": NOTICE }, el("p", {}, el("strong", {}, NOTICE)), el("p", { class: "lines" }, notice.trim())));
}

// ---- whom to ask

let help = null;

/** Fetches once whom the board names for questions: a text, which may be in Hindi too, and an address. */
const helpComes = () => (help ??= jsonPaper("help.json"));

/** Returns the elements of a text, whose numbers to call are links, and do not break over lines. */
const phoned = (text) => withPhones(text).map((it) => (it.href ? el("a", { class: "phone", href: it.href }, it.number) : it));

// an address that a browser may open: a page, a mail or a call
const isAddress = (text) => /^(?:https:\/\/|mailto:|tel:)[^\s]+$/.test(text ?? "");

/** Returns whom to ask as text, and as elements for a sentence; or null where the board has not published it. */
export async function contact() {
  const found = await helpComes();
  const text = [found?.[document.documentElement.lang], found?.text].find((it) => typeof it === "string" && it.trim())?.trim();
  const address = isAddress(found?.url) ? found.url : null;
  if (!text && !address) return null;
  const shown = address?.replace(/^(?:mailto:|tel:)/, "");
  return { text: [text, shown].filter(Boolean).join(" "), parts: [...phoned(text ?? ""), text && address && " ", address && el("a", { href: address, class: address.startsWith("tel:") ? "phone" : null }, shown)].filter(Boolean) };
}

/** Shows whom to ask, after a sentence; or another sentence where the board has not published it. */
export async function showContact(region, sentence = HELP.ask, otherwise = null) {
  const found = await contact();
  show(region, found ? el("p", {}, sentence, " ", ...found.parts) : otherwise);
}

/** Asks for the state and shows it. Returns it, or null after saying why there is none. */
export async function showState(region) {
  say(region, "plain", ASKING);
  const got = await askState({ waiting: () => say(region, "plain", WAITING) });
  if (got.body?.reply !== "state") {
    say(region, "bad", trouble(got), ownWords(got));
    return null;
  }
  say(region, "plain", phase(got.body).join(" "), details(OWN_WORDS, verbatim(lineOf(got.body))));
  return got.body;
}

// ---- the announced end of the window

let shown = null;

/** Fetches the paper with the announced end, which a page may ask for before it knows which window is open. */
export const endPaper = () => jsonPaper("window.json", freshPaper);

/** Returns the announced end of the open window in milliseconds, or null where the papers do not say it. */
export async function announcedEnd(state, paper = endPaper()) {
  const found = await paper;
  const end = Date.parse(found?.closes ?? "");
  return found?.window === state.now && state.now <= state.rounds && !Number.isNaN(end) ? end : null;
}

/** Returns until when the board takes lists for a special round, in milliseconds, or null where it has not announced that. */
export async function listsEnd() {
  const end = Date.parse((await jsonPaper("special.json", freshPaper))?.closes ?? "");
  return Number.isNaN(end) ? null : end;
}

/** Shows when the open window closes, and what is left until then. What is left is counted down, and not read out. */
export function showEnd(region, state, end, words = CLOSES) {
  clearInterval(shown);
  region.textContent = "";
  if (end === null) return;
  const write = () => (region.textContent = words(state.now, end, end - serverTime()));
  write();
  // it ends where the page has cleared it
  shown = setInterval(() => (region.textContent ? write() : clearInterval(shown)), HALF_MINUTE);
}

// ---- looking again

/** Calls `then` now and then while the page is seen, and when it is seen again after a while. */
export function lookAgain(then) {
  let looked = Date.now();
  const look = (least) => {
    if (document.visibilityState !== "visible" || Date.now() - looked < least) return;
    looked = Date.now();
    then();
  };
  document.addEventListener("visibilitychange", () => look(AT_LEAST));
  // pages that were opened at the same moment do not all ask at the same moment
  setInterval(() => look(EVERY * (0.8 + 0.4 * Math.random())), AT_LEAST);
}
