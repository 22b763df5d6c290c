/** The cutoffs of all programmes on the page for anybody: a table with a search, and the programmes that would admit a place. */
import { askCutoffs, paper } from "./ask.js";
import { compared, firstWithin, bySteps, readCutoffs, readCutoffTable, readPlace } from "./cutoffs.js";
import { $, clear, details, el, inParts, ownWords, say, sayFault, show, table, valuesOf } from "./dom.js";
import { isCode, TRAITS } from "./rule.js";
import { found as foundIn } from "./search.js";
import { instituteName, instituteOf, isUsed, listName, papersCome, placeOfRank, programmeName, programmeOf, rankListsOf, shownPlace, textsOfProgramme } from "./season.js";
import { ASKING, CATEGORIES, CUTOFFS, FAULTS, HOLDS, IN_ORDER, kindOfSeat, LIKE, MOCK, NOT_DISABILITY, trouble } from "./words.js";

const AT_ONCE = 50;
const LISTS = [1, 2, 3, 4];
const tables = new Map();

/** Returns the published cutoffs of all programmes of a round, or null where they are not published or cannot be read. A round is never
 * published twice, so each is fetched once. */
async function tableOf(round) {
  if (tables.has(round)) return tables.get(round);
  const text = await paper(paperName("cutoffs", round));
  if (text === null) return null;
  try {
    tables.set(round, readCutoffTable(text));
  } catch {
    return null;
  }
  return tables.get(round);
}

const paperName = (kind, round) => (round === MOCK ? `mock-${kind}.csv` : `${kind}-${round}.csv`);
const roundOf = (select) => (select.value === MOCK ? MOCK : Number(select.value));

/** What somebody has to know of the cutoffs of these programmes. */
function caveats(round, programmes) {
  const used = LISTS.filter((list) => programmes.some((it) => programmeOf(it.code)?.list === list));
  const orders = used.map((it) => rankListsOf(it).map((one) => one.name)).filter((it) => it.length);
  const all = details(CUTOFFS.notSaid, el("ul", { class: "hint" }, [...orders.map(IN_ORDER), ...CUTOFFS.caveats()].map((it) => el("li", {}, it))));
  return el("div", {}, el("p", { class: "hint" }, CUTOFFS.about(round)), hasD(programmes) && el("p", {}, el("strong", {}, NOT_DISABILITY)), all);
}
const hasD = (programmes) => programmes.some((it) => it.lines.some((line) => line.step === "D"));

// ---- all cutoffs, with a search

/** Shows the programmes of a round for which a text is found in name, institute or code. Without the published table it asks the office for the
 * programme whose code was typed. */
export async function showCutoffs() {
  const [said, out] = [$("cutoffs-said"), $("cutoffs")];
  clear(out);
  const round = roundOf($("cutoffs-round"));
  if (!round) return say(said, "bad", FAULTS.round);
  say(said, "plain", ASKING);
  const [all] = await Promise.all([tableOf(round), papersCome()]);
  const wanted = $("search").value.trim();
  if (!all) return showOne(said, out, round, wanted);
  const found = foundIn(all, ({ code, institute }) => textsOfProgramme(code, institute), wanted);
  if (!found.length) return say(said, "plain", CUTOFFS.noneFound);
  say(said, "plain", CUTOFFS.caption(round, found.length));
  showTable(out, round, found);
  const link = (kind, words) => el("a", { href: `/season/${paperName(kind, round)}`, download: true, class: "button" }, words);
  out.append(el("p", { class: "row" }, link("cutoffs", CUTOFFS.save), link("closing", CUTOFFS.saveClosing)));
}

async function showOne(said, out, round, code) {
  if (!isCode(code) || round === MOCK) return say(said, "plain", CUTOFFS.noPaper);
  const got = await askCutoffs(round, code);
  if (got.body?.reply !== "cutoffs") return say(said, "bad", trouble(got), ownWords(got));
  const { lines } = readCutoffs(got.body.text);
  if (!lines.length) return say(said, "plain", CUTOFFS.nobody);
  say(said, "plain");
  showTable(out, round, [{ code, institute: instituteOf(code) ?? "", lines }]);
}

/** Returns lines of cutoffs with their places as candidates know them. */
const shown = (code, lines) => lines.map((it) => ({ ...it, ...shownPlace(programmeOf(code)?.list, it.place) }));

/** Shows a row for each programme, with a line for each kind of seat. */
function showTable(out, round, programmes) {
  const line = (it) => el("li", {}, el("strong", {}, kindOfSeat(it.step)), " ", el("span", {}, CUTOFFS.ends(it.lines)));
  const row = ({ code, institute, lines }) => [programmeName(code), instituteName(institute), el("ul", { class: "ends" }, bySteps(shown(code, lines)).map(line))];
  const part = (some) => table(CUTOFFS.caption(round, programmes.length), CUTOFFS.columns, some.map(row));
  show(out, caveats(round, programmes), ...inParts(programmes, AT_ONCE, CUTOFFS.more, part));
}

// ---- which programmes are within the reach of a place

export function fillLike() {
  $("category").append(...Object.entries(CATEGORIES).map(([value, words]) => el("option", { value }, words)));
  $("trait-boxes").append(...TRAITS.map((it) => el("label", { class: "check" }, el("input", { type: "checkbox", "data-trait": it }), ` ${HOLDS[it]}`)));
}

/** Names the merit lists as people know them, and leaves out those that no published programme uses. Of a merit list that has several lists of ranks, somebody says which theirs is. */
export function nameLists() {
  for (const it of LISTS) {
    const field = $(`place-${it}`);
    field.labels[0].textContent = listName(it);
    field.closest("p").hidden = !isUsed(it);
    const lists = rankListsOf(it);
    const from = $(`from-${it}`);
    from.hidden = lists.length === 0;
    from.setAttribute("aria-label", LIKE.of(listName(it)));
    from.replaceChildren(...lists.map((one, at) => el("option", { value: at }, one.name)));
  }
}

/** Returns the place of what was typed for a merit list, null where nothing was, or undefined where the list has no such rank. */
function placeTyped(list, text) {
  const typed = readPlace(text);
  const found = typed && placeOfRank(list, Number($(`from-${list}`).value), typed.place);
  if (typed && !found) return undefined;
  return typed && { place: found.place, isCommon: typed.isCommon && !found.isRelaxed };
}

/** Shows the programmes that would admit one person more with the category, the traits and the places that were typed. */
export async function showLike() {
  const [said, out] = [$("like-said"), $("like")];
  clear(out);
  say(said, "plain");
  const texts = valuesOf(...LISTS.map((it) => [$(`place-${it}`), isPlaceOrNone, "place", (text) => text.trim().replaceAll(",", "").toUpperCase()]));
  if (!texts) return;
  const places = texts.map((text, at) => placeTyped(at + 1, text));
  const wrong = places.indexOf(undefined);
  if (wrong >= 0) return sayFault($(`place-${wrong + 1}`), "noRank");
  const round = roundOf($("like-round"));
  if (!round) return say(said, "bad", FAULTS.round);
  if (!places.some(Boolean)) return say(said, "bad", LIKE.noPlace);
  say(said, "plain", ASKING);
  const [all] = await Promise.all([tableOf(round), papersCome()]);
  if (!all?.some((it) => programmeOf(it.code))) return say(said, "bad", LIKE.noPaper);
  const entry = { category: $("category").value, traits: [...document.querySelectorAll("[data-trait]:checked")].map((it) => it.dataset.trait).join("") };
  const found = all.map((it) => wouldAdmit(it, entry, places)).filter(Boolean);
  say(said, "plain", found.length ? LIKE.caption(round, found.length) : LIKE.none(round));
  if (found.length) show(out, LIKE.first, caveats(round, all), ...inParts(found, AT_ONCE, CUTOFFS.more, (some) => table(LIKE.caption(round, found.length), LIKE.columns, some)));
}

const isPlaceOrNone = (text) => text === "" || readPlace(text) !== null;

/** Returns the row for a programme that would admit somebody, or null. */
function wouldAdmit({ code, institute, lines }, entry, places) {
  const place = places[(programmeOf(code)?.list ?? 0) - 1];
  const step = place && firstWithin(compared(shown(code, lines), entry, place));
  if (!step) return null;
  const own = shownPlace(programmeOf(code).list, place.place);
  return [programmeName(code), instituteName(institute), kindOfSeat(step.step), LIKE.ends(own, step.best), LIKE.ahead(own, step.best)];
}
