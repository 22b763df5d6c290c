/** Small helpers over the document. No markup is made from text here or anywhere else. */
import { lineOf } from "./rule.js";
import { ANSWER, FAULTS, HIDE_TOKEN, NO, OWN_WORDS, SAVED, SHOW_TOKEN, SWITCH, TYPED } from "./words.js";

// a text of more lines has a box of its own
const SHORT = 40;

export const $ = (id) => document.getElementById(id);

/** Makes an element. An attribute that is true is set empty, one that is false, null or undefined is left out; `on` has listeners. */
export function el(name, attributes = {}, ...inside) {
  const made = document.createElement(name);
  for (const [key, value] of Object.entries(attributes)) {
    if (key === "on") for (const [event, listener] of Object.entries(value)) made.addEventListener(event, listener);
    else if (value !== false && value !== null && value !== undefined) made.setAttribute(key, value === true ? "" : value);
  }
  made.append(...inside.flat().filter((it) => it !== null && it !== undefined && it !== false).map((it) => (typeof it === "number" ? String(it) : it)));
  return made;
}

let pending = 0;

function mark(change) {
  pending += change;
  $("main").setAttribute("aria-busy", String(pending > 0));
}

/** Marks the page as busy while something is under way. */
export async function busy(then) {
  mark(1);
  try {
    return await then();
  } finally {
    mark(-1);
  }
}

/** Does what a button is for, and shows on it that this takes a while. A second press meanwhile does nothing. */
async function pressed(it, then) {
  if (!it || it.getAttribute("aria-busy") === "true") return;
  it.setAttribute("aria-busy", "true");
  try {
    await busy(then);
  } finally {
    it.removeAttribute("aria-busy");
  }
}

export const button = (text, then, attributes = {}) => el("button", { type: "button", on: { click: (event) => pressed(event.currentTarget, then) }, ...attributes }, text);

/** Calls `then` when a button of the page is pressed. */
export const onPress = (it, then) => it.addEventListener("click", () => pressed(it, then));

/** Puts sentences and elements into a region, in place of what it had. */
export const show = (region, ...parts) => region.replaceChildren(...parts.flat().filter(Boolean).map((it) => (typeof it === "string" ? el("p", {}, it) : it)));

/** Shows a message in a region for messages. The kind is `plain`, `good` or `bad`. */
export function say(region, kind, ...parts) {
  region.className = `say ${kind}`;
  show(region, ...parts);
}

export const clear = (...regions) => regions.forEach((it) => it.replaceChildren());

/** Opens the page once its listeners are in place: forms may be sent from now on. */
export function ready() {
  $("starting")?.remove();
  for (const it of document.querySelectorAll("button[data-early]")) it.disabled = false;
  document.documentElement.dataset.ready = "yes";
}

/** Calls `then` when a form is sent. The browser itself never sends one. */
export function onSend(form, then) {
  form.addEventListener("submit", (event) => {
    event.preventDefault();
    pressed(event.submitter ?? form.querySelector("button.main") ?? form.querySelector("button"), then);
  });
}

// ---- fields

/** Returns what was typed without blanks at its ends. */
const trimmed = (text) => text.trim();

/** Returns a token as it is known to the office, however it was grouped for reading. */
export const ungrouped = (text) => text.replace(/[\s-]/g, "");

/** Takes from a field what was said to be wrong with it. */
function clearFault(field) {
  const id = `${field.id}-fault`;
  $(id)?.remove();
  field.removeAttribute("aria-invalid");
  const others = (field.getAttribute("aria-describedby") ?? "").split(" ").filter((it) => it && it !== id);
  if (others.length) field.setAttribute("aria-describedby", others.join(" "));
  else field.removeAttribute("aria-describedby");
}

/** Says at a field what is wrong with what it holds, and leaves it there to be mended. */
export function sayFault(field, fault) {
  clearFault(field);
  const id = `${field.id}-fault`;
  field.setAttribute("aria-invalid", "true");
  field.setAttribute("aria-describedby", `${field.getAttribute("aria-describedby") ?? ""} ${id}`.trim());
  field.after(el("span", { id, class: "fault" }, FAULTS[fault]));
  field.addEventListener("input", () => clearFault(field), { once: true });
}

/** Returns what fields hold, each of them a field with what it must satisfy, the name of the fault, and how it is cleaned. Returns null after
 * saying at each wrong field what is wrong; the first of them has the focus then. */
export function valuesOf(...fields) {
  const read = fields.map(([field, holds, fault, clean = trimmed]) => {
    const value = clean(field.value);
    clearFault(field);
    if (holds(value)) return { field, value };
    sayFault(field, typeof fault === "function" ? fault(value) : fault);
    return { field, value: null };
  });
  const wrong = read.find((it) => it.value === null);
  wrong?.field.focus();
  return wrong ? null : read.map((it) => it.value);
}

/** Returns what one field holds, or null after saying at it what is wrong. */
export const valueOf = (...field) => valuesOf(field)?.[0] ?? null;

/** Lets a button show what is typed into a field for a token, and hide it again. */
export function canBeShown(field, press) {
  press.addEventListener("click", () => {
    const isHidden = field.type === "password";
    field.type = isHidden ? "text" : "password";
    press.setAttribute("aria-pressed", String(isHidden));
    press.textContent = isHidden ? HIDE_TOKEN : SHOW_TOKEN;
    field.dispatchEvent(new Event("shown"));
  });
}

/** Says below a field for a token how much was typed, and in groups of four what, while the field shows it. */
export function countSigns(field, region, grouped) {
  const write = () => (region.textContent = field.value ? TYPED(ungrouped(field.value).length, field.type === "text" ? grouped(ungrouped(field.value)) : "") : "");
  for (const it of ["input", "shown"]) field.addEventListener(it, write);
}

/** Hides and empties a field for a token. */
export function emptyToken(field, press) {
  field.value = "";
  field.dispatchEvent(new Event("shown"));
  field.type = "password";
  press.setAttribute("aria-pressed", "false");
  press.textContent = SHOW_TOKEN;
}

// ---- questions

const spaced = (text) => text.trim().replace(/\s+/g, " ").toLowerCase();

/** Makes paragraphs of sentences, and a list of the programmes that are in an array, each with its number on the choice list. A long list ends with how
 * many more there are. */
export const paragraphs = (lines, most = 6) =>
  lines.filter(Boolean).map((it) => {
    if (!Array.isArray(it)) return typeof it === "string" ? el("p", {}, it) : it;
    const some = it.length > most ? it.slice(0, most - 1) : it;
    const more = some.length < it.length && el("li", { class: "more" }, ANSWER.more(it.length - some.length));
    return el("ol", {}, some.map(({ at, name }) => el("li", { value: at }, name)), more);
  });

/** Asks whether to go on, and returns the answer. The first button is No, so that Enter and Escape mean No also from the box. With `type` the button Yes opens
 * only when its text is typed, and with `tick` when its box is ticked. Call it from what `busy` waits for: meanwhile the page waits for a person
 * and is not busy. */
export function confirmed({ title, lines, yes, grave = false, type = null, tick = null }) {
  const confirm = el("button", { value: "yes", class: grave ? "grave" : "main", disabled: type !== null || tick !== null }, yes);
  const box = tick && el("input", { type: "checkbox", id: "ticked", autofocus: true, on: { change: () => (confirm.disabled = !box.checked) } });
  const look = () => (confirm.disabled = spaced(field.value) !== spaced(type.text));
  const field = type && el("input", { id: "typed", inputmode: type.mode ?? "text", autocomplete: "off", autocapitalize: "off", spellcheck: "false", on: { input: look } });
  const ask = el(
    "dialog",
    { "aria-labelledby": "sure-title", "aria-describedby": "sure-text" },
    el("h2", { id: "sure-title" }, title),
    el("div", { id: "sure-text" }, paragraphs(lines)),
    el(
      "form",
      { method: "dialog" },
      box && el("p", {}, el("label", { class: "check", for: "ticked" }, box, ` ${tick}`)),
      field && el("p", {}, el("label", { for: "typed" }, type.label), field),
      el("p", { class: "row" }, el("button", { value: "no", autofocus: !box }, NO), confirm),
    ),
  );
  document.body.append(ask);
  ask.returnValue = "no";
  ask.showModal();
  // the focus is at the buttons, and a long question begins at its top all the same
  ask.scrollTop = 0;
  mark(-1);
  return new Promise((then) => {
    ask.addEventListener("close", () => {
      ask.remove();
      mark(1);
      then(ask.returnValue === "yes");
    });
  });
}

/** Answers every open question with No. */
export const closeQuestions = () => document.querySelectorAll("dialog[open]").forEach((it) => it.close("no"));

/** Asks before another page is opened, if `isIn` says that somebody is signed in whom that page will not know. */
export function askBeforeLeaving(isIn) {
  for (const it of document.querySelectorAll(".languages a, nav a")) {
    it.addEventListener("click", (event) => {
      if (!isIn()) return;
      event.preventDefault();
      busy(async () => (await confirmed(SWITCH)) && location.assign(it.href));
    });
  }
}

/** Asks whether somebody is there, and calls `then` if a person says so. Any touch of the page closes it too. */
export function askPerson({ title, lines, stay }, then) {
  closeWarning();
  const press = el("button", { type: "button", class: "main", autofocus: true, on: { click: then } }, stay);
  const warning = el(
    "dialog",
    { id: "idle", role: "alertdialog", "aria-labelledby": "idle-title", "aria-describedby": "idle-text" },
    el("h2", { id: "idle-title" }, title),
    el("div", { id: "idle-text" }, lines.map((it) => el("p", {}, it))),
    el("p", { class: "row" }, press),
  );
  document.body.append(warning);
  warning.showModal();
}

export function closeWarning() {
  $("idle")?.close();
  $("idle")?.remove();
}

// ---- texts and tables

export const details = (summary, ...inside) => el("details", {}, el("summary", {}, summary), ...inside);

/** Shows a refusal in the office's own words, which have its number and name; nothing where no reply came. */
export const ownWords = (got) => got.body && details(OWN_WORDS, verbatim(lineOf(got.body)));

/** Shows a text of the office as it is, which is in English; a long one in a box. */
export const verbatim = (text) => (text.split("\n").length > SHORT ? textBox(text) : el("pre", { lang: "en" }, text));

/** Makes something that is fetched when it is opened for the first time. */
export function lazyDetails(summary, bring) {
  const inside = el("div");
  const made = details(summary, inside);
  made.addEventListener("toggle", () => made.open && busy(async () => show(inside, ...(await bring()))), { once: true });
  return made;
}

/** Shows a long text in a box of its own, which can be scrolled by keyboard too. */
export const textBox = (text, label = OWN_WORDS) => el("pre", { class: "long", lang: "en", tabindex: "0", role: "region", "aria-label": label }, text);

/** Makes a table, whose rows are cards on a narrow page. Its cells are texts or elements, its first column heads the rows. The roles are said, because
 * a row that is shown as a card would lose them in some browsers. */
export function table(caption, columns, rows) {
  const cell = (it, at) => el("td", { role: "cell", "data-column": columns[at + 1] }, it);
  const line = ([first, ...others]) => el("tr", { role: "row" }, el("th", { scope: "row", role: "rowheader" }, first), others.map(cell));
  return el(
    "table",
    { role: "table", class: "cards" },
    el("caption", {}, caption),
    el("thead", { role: "rowgroup" }, el("tr", { role: "row" }, columns.map((it) => el("th", { scope: "col", role: "columnheader" }, it)))),
    el("tbody", { role: "rowgroup" }, rows.map(line)),
  );
}

/** Shows the first of many things, and more of them at a button, which gives the first of those the focus. */
export function inParts(all, most, moreWords, make) {
  const part = (from) => {
    const some = all.slice(from, from + most);
    const left = all.length - from - some.length;
    const made = make(some, from);
    if (from) made.tabIndex = -1;
    if (left <= 0) return [made];
    const more = el("button", { type: "button" }, moreWords(Math.min(most, left), left));
    more.addEventListener("click", () => {
      const next = part(from + most);
      more.replaceWith(...next);
      next[0].focus();
    });
    return [made, more];
  };
  return part(0);
}

const links = new Set();

/** Makes a link that saves a text as a file, and the place where the page then says under which name. The text is in memory until `dropLinks`. */
export function saveLink(words, name, text, type = "text/plain") {
  const href = URL.createObjectURL(new Blob([text], { type }));
  links.add(href);
  const said = el("span", { class: "saved", role: "status" });
  const press = el("a", { href, download: name, class: "button", on: { click: () => said.replaceChildren(...SAVED(el("code", { lang: "en" }, name))) } }, words);
  return [press, said];
}

export function dropLinks() {
  links.forEach((it) => URL.revokeObjectURL(it));
  links.clear();
}

/** Offers programme codes with their names at the fields that ask for one. */
export function offerCodes(codes) {
  $("codes")?.replaceChildren(...codes.map(([value, label]) => el("option", { value, label: label === value ? null : label })));
}
