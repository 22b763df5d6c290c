/** The words of both languages, side by side: the same names, the terms of the glossary, and no word in place of one. node --test web/tests */
import assert from "node:assert/strict";
import { readdirSync, readFileSync } from "node:fs";
import { test } from "node:test";
import * as en from "../words.js";
import * as hi from "../words.hi.js";
import { FREER, NEVER, TERMS } from "./terms.js";

/** Returns the sentences within the text of a function: its strings and templates, without the code between them. */
function literals(code) {
  const found = [];
  let at = 0;
  const quoted = (end) => {
    let text = "";
    for (at++; at < code.length && code[at] !== end; at++) {
      if (code[at] === "\\") at++;
      if (end === "`" && code.startsWith("${", at)) {
        at += 2;
        coded("}");
        text += "…";
      } else text += code[at];
    }
    at++;
    found.push(text);
  };
  const coded = (end) => {
    for (let depth = 0; at < code.length; ) {
      if (code[at] === '"' || code[at] === "`") quoted(code[at]);
      else if (code[at] === end && depth === 0) return;
      else depth += { "{": 1, "}": -1 }[code[at++]] ?? 0;
    }
  };
  coded(null);
  return found;
}

/** Returns the text of each word by its name, such as `ANSWER.now`. */
function texts(it, at = "") {
  if (typeof it === "string") return [[at, it]];
  if (typeof it === "function") return [[at, literals(it.toString()).join(" ")]];
  return it !== null && typeof it === "object" ? Object.keys(it).flatMap((key) => texts(it[key], at ? `${at}.${key}` : key)) : [];
}

/** Returns a file of the repository. */
const file = (path) => readFileSync(new URL(`../../${path}`, import.meta.url), "utf-8");

/** Returns all words of a module, also the tables that it keeps for itself. */
async function whole(name) {
  const code = file(`web/${name}`);
  const own = [...code.matchAll(/^(?:const|function) (\w+)/gm)].map((it) => it[1]);
  return import(`data:text/javascript,${encodeURIComponent(`${code}\nexport { ${own.join(", ")} };`)}`);
}

// numbers and hours, names of files, what a person types, and codes are not sentences
const OUTSIDE = /^(?:figure|count|nth|NTH|listed|WHEN|PARTS|clock|stepName|EXAMPLE|MOCK)\b|fileName|whoFile|sureType|Head$|CLERK\.raise|noScriptTexts/;
const [english, hindi] = (await Promise.all(["words.js", "words.hi.js"].map(whole))).map((it) => new Map(texts(it).filter(([name]) => !OUTSIDE.test(name))));

test("both languages have the same names", () => {
  assert.deepEqual([...english.keys()].sort(), [...hindi.keys()].sort());
  assert.deepEqual(Object.keys(en).sort(), Object.keys(hi).sort());
});

/** Returns the terms that the sentences of one language have, and those of the same names in the other one have not. */
const lost = (own, others) => [...own].flatMap(([name, text]) => TERMS.filter((it) => it.en.test(text) && !it.hi.test(others.get(name) ?? "")).map((it) => `${name}: ${it.en}: ${others.get(name)}`));

/** Returns whether a sentence may say a term in Hindi alone. */
const isFree = (name, term) => name in FREER && term.hi.test(FREER[name][0]);

/** Returns the terms that the sentences in Hindi have, and those of the same names in English have not, of those that both languages have alike. */
const foreign = (own, others) =>
  [...others].flatMap(([name, text]) => TERMS.filter((it) => !it.oneWay && it.hi.test(text) && !it.en.test(own.get(name) ?? "") && !isFree(name, it)).map((it) => `${name}: ${it.hi}: ${own.get(name)}`));

test("a term of the glossary is in the sentence of both languages", () => {
  assert.deepEqual(lost(english, hindi), []);
  assert.deepEqual(foreign(english, hindi), []);
});

/** Returns each sentence in which a word is that has another one in its place. */
const misnamed = (sentences, never) => sentences.flatMap((text) => never.filter(([word]) => word.test(text)).map(([word, instead]) => `${word} (${instead}): ${text}`));
const NOT = { en: [...NEVER.everywhere, ...NEVER.en], hi: NEVER.hi };

test("no word is in place of a term", () => {
  for (const [name, language] of [["words.js", "en"], ["words.hi.js", "hi"]]) {
    const code = file(`web/${name}`).replace(/^\s*(?:\/\/.*|\/\*\*(?:.|\n)*?\*\/)\n/gm, "");
    assert.deepEqual(misnamed(literals(code), NOT[language]), [], name);
  }
});

const DEVANAGARI = /[\u0900-\u097f]/;

/** Returns the files of a folder and its folders that have a text in Hindi. */
const withHindi = (folder) =>
  readdirSync(new URL(`../../${folder}/`, import.meta.url), { withFileTypes: true }).flatMap((it) =>
    it.isDirectory() ? withHindi(`${folder}/${it.name}`) : DEVANAGARI.test(file(`${folder}/${it.name}`)) ? [`${folder}/${it.name}`] : [],
  );

test("nor in what the web server and the programs of deploy/ show", () => {
  const shown = withHindi("deploy");
  assert.ok(["deploy/papers", "deploy/choices/choices.conf", "deploy/pages/404.html"].every((it) => shown.includes(it)), `${shown}`);
  for (const path of shown) {
    const said = file(path).split("\n").filter((it) => DEVANAGARI.test(it) || /^<(?:p|h1|h2|title)\b/.test(it)).map((it) => it.replace(/<[^>]*>/g, " "));
    for (const language of ["en", "hi"]) assert.deepEqual(misnamed(said, NOT[language]), [], path);
  }
});

/** Returns the lines of a document, each under its number, without the pages to which it links. */
const lines = (path) => new Map(file(path).split("\n").map((it, at) => [`line ${at + 1}`, it.replace(/\]\([^)]*\)/g, "]")]));

for (const name of ["HELP", "CANDIDATE"]) {
  test(`nor in the guide: ${name} says the same terms in both languages, line by line`, () => {
    const [own, others] = [`docs/${name}.md`, `docs/${name}.hi.md`].map(lines);
    const [form, otherForm] = [own, others].map((it) => [...it.values()].map((line) => (line === "" ? "" : (/^(?:#+ |\||\s*[-\d.]* )/.exec(line)?.[0] ?? "text"))));
    assert.deepEqual(otherForm, form);
    assert.deepEqual(lost(own, others), []);
    assert.deepEqual(foreign(own, others), []);
    for (const [sentences, never] of [[own, NOT.en], [others, NOT.hi]]) assert.deepEqual(misnamed([...sentences.values()], never), []);
  });
}

/** Returns the documents in English of a folder. */
const inFolder = (folder) => readdirSync(new URL(`../../${folder}/`, import.meta.url)).filter((it) => it.endsWith(".md") && !it.endsWith(".hi.md")).map((it) => `${folder}/${it}`);

/** Returns the lines of a document, without its code and the pages to which it links. */
const proseOf = (path) => file(path).split("\n").filter((it) => !it.startsWith("    ")).map((it) => it.replace(/`[^`]*`/g, "").replace(/\]\([^)]*\)/g, "]"));

test("nor in any document in English", () => {
  // DEFINITIONS has the words of other works next to ours
  const documents = ["README.md", "SECURITY.md", "CHANGELOG.md", "CONTRIBUTING.md", ...["docs", "docs/promises", "deploy", "deploy/choices", "deploy/replicated", "tools", "web", "examples"].flatMap(inFolder)].filter((it) => it !== "docs/DEFINITIONS.md");
  assert.ok(documents.length > 35, `${documents}`);
  assert.deepEqual(documents.flatMap((path) => misnamed(proseOf(path), NEVER.everywhere).map((it) => `${path}: ${it}`)), []);
});

test("nor where candidates make their lists on the web, and terms are the same there", () => {
  // what is in braces is a name of the program
  const [own, others] = ["en", "hi"].map((it) => new Map(texts(JSON.parse(file(`deploy/choices/words.${it}.json`))).map(([name, text]) => [name, text.replace(/\{\w+\}/g, "…")])));
  assert.deepEqual([...own.keys()], [...others.keys()]);
  assert.deepEqual(lost(own, others), []);
  assert.deepEqual(foreign(own, others), []);
  for (const [sentences, never] of [[own, NOT.en], [others, NOT.hi]]) assert.deepEqual(misnamed([...sentences.values()], never), []);
});

test("nor in the letters that the board prints, and terms are the same there", () => {
  const [own, others] = ["en", "hi"].map((it) => new Map(texts(JSON.parse(file(`tools/letter_words.${it}.json`))).map(([name, text]) => [name, text.replace(/\{\w+\}/g, "…")])));
  assert.deepEqual([...own.keys()], [...others.keys()]);
  assert.deepEqual(lost(own, others), []);
  assert.deepEqual(foreign(own, others), []);
  assert.deepEqual(misnamed([...others.values()], NOT.hi), []);
  assert.deepEqual([...others].filter(([name, text]) => name !== "language" && /[A-Za-z]/.test(text.replace(/…/g, ""))), []);
});

/** Returns sentences with another word in place of a term in one of them. */
const spoiled = (sentences, name, term) => new Map([...sentences, [name, sentences.get(name).replace(new RegExp(term.source, `${term.flags}g`), "zzz")]]);

test("another word in place of a term is found, in each sentence of each language", () => {
  const tried = { hi: 0, en: 0 };
  for (const term of TERMS) {
    const names = [...english.keys()].filter((it) => term.en.test(english.get(it)) && term.hi.test(hindi.get(it)));
    assert.ok(names.length, `${term.en} is in no sentence`);
    for (const name of names) {
      assert.ok(lost(english, spoiled(hindi, name, term.hi)).length, `${name} without ${term.hi}`);
      tried.hi += 1;
      if (term.oneWay || isFree(name, term)) continue;
      assert.ok(foreign(spoiled(english, name, term.en), hindi).length, `${name} without ${term.en}`);
      tried.en += 1;
    }
  }
  assert.ok(tried.hi > 600 && tried.en > 350, `${tried.hi} and ${tried.en} words were tried`);
});

test("a wrong word is found", () => {
  assert.equal(misnamed(["The aspirants wait."], NOT.en).length, 1);
  assert.equal(misnamed(["यह सत्र पूरा हुआ।"], NOT.hi).length, 1);
  assert.equal(lost(new Map([["it", "Your seat"]]), new Map([["it", "आपका स्थान"]])).length, 1);
  assert.deepEqual(literals('({ a }) => (a ? `Round ${figure("x")} of ${b}.` : "none")'), ["x", "Round … of ….", "none"]);
});

test("figures and moments are written as in India", () => {
  const end = Date.parse("2026-12-02T17:00:00+05:30");
  assert.equal(en.moment(end), "5 pm on 2 December");
  assert.equal(hi.moment(end), "2 दिसंबर, शाम 5 बजे");
  assert.equal(en.moment(end + 65 * 60_000), "6:05 pm on 2 December");
  assert.match(en.CUTOFFS.caption(1, 250_000), /2,50,000/);
  assert.match(en.CLOSES(1, end, 3_600_000), /1 hour left/);
});

test("a cutoff is said in words, with how far a place is from it", () => {
  const at = (rank, of = null) => ({ rank, of });
  const lines = [{ traits: "", ...at(8017) }, { traits: "W", ...at(9846) }, { traits: "D", ...at(Infinity) }];
  assert.equal(en.CUTOFFS.ends(lines), "8,017 · women 9,846 · persons with disabilities any place");
  const far = { step: "OPEN", lines, held: lines, best: lines[0], own: at(37368), isWithin: false };
  assert.equal(en.WHY.compare(far), "Open seats end at place 8,017 (women 9,846, persons with disabilities any place). Yours is 37,368, 29,351 behind.");
  assert.equal(en.WHY.compare({ ...far, best: lines[1] }), "Open seats end at place 8,017 (women 9,846, persons with disabilities any place). Yours is 37,368, 27,522 behind the 9,846 for women.");
  assert.equal(hi.WHY.compare(far), "ओपन सीटें रैंक 8,017 तक मिलीं (महिलाओं को 9,846 तक, दिव्यांगों को किसी भी रैंक पर)। आपकी रैंक 37,368 है, 29,351 पीछे।");
  assert.equal(en.WHY.compare({ ...far, held: lines.slice(0, 1) }), "Open seats end at place 8,017. Yours is 37,368, 29,351 behind.");
  const women = { ...far, held: lines.slice(1, 2), best: lines[1] };
  assert.equal(en.WHY.compare(women), "Open seats end at place 9,846 for women. Yours is 37,368, 27,522 behind the 9,846 for women.");
  assert.equal(hi.WHY.compare(women), "ओपन सीटें महिलाओं को 9,846 तक मिलीं। आपकी रैंक 37,368 है, महिलाओं की आख़िरी रैंक 9,846 से 27,522 पीछे।");
  assert.equal(en.WHY.compare({ ...women, lines: lines.slice(1), held: [], best: null }), "Open seats admit only women or persons with disabilities, and you are not among them.");
  assert.equal(hi.WHY.compare({ ...women, lines: lines.slice(1, 2), held: [], best: null }), "ओपन सीटें केवल महिलाओं को मिल सकती हैं, और आप उनमें नहीं हैं।");
  assert.equal(hi.CUTOFFS.ends([{ traits: "WD", ...at(7) }]), "दिव्यांग महिलाओं को 7");
});

test("a refusal names the trait, and says in plain words why somebody with a worse place has a seat", () => {
  assert.equal(en.SETTLED.by.notrait(4, { held: "W" }), "no seat of this kind is protected for women, and everyone admitted has a better place.");
  assert.equal(hi.SETTLED.by.notrait(4, { held: "WD" }), "इनमें से कोई सीट महिलाओं या दिव्यांगों के लिए आरक्षित नहीं है, और जिन्हें सीट मिली उन सबकी रैंक बेहतर है।");
  assert.equal(hi.SETTLED.by.notrait(1, { held: "W" }), "यह सीट महिलाओं के लिए आरक्षित नहीं है, और जिस उम्मीदवार को सीट मिली उसकी रैंक बेहतर है।");
  const [needed, others] = [{ by: { trait: "W" }, isWithin: false }, { by: { traits: ["W"] }, isWithin: null }];
  assert.equal(
    en.SETTLED.by.needed(4, needed),
    "the last candidate on this list has a worse place than yours, and fills a seat protected for women. That is right if with you instead fewer protected seats would be filled. The cutoffs above decide this, and your place reaches none of them.",
  );
  assert.equal(en.SETTLED.by.others(4, others), "everyone admitted has a better place, and all seats protected for women are filled. Another protected seat is not filled. The cutoffs above decide this.");
  assert.equal(
    en.WHY.worseYes(4, ["W", "D"]),
    "all 4 seats are taken. Everyone admitted has a better place than yours, except on a seat protected for women or persons with disabilities. Without the candidate on that seat, fewer protected seats would be filled.",
  );
  assert.equal(en.WHY.worseYes(1, []), "the one seat is taken. It is protected for a trait that you do not hold, so it went to a candidate with a worse place than yours. Without that candidate, no protected seat would be filled.");
  assert.equal(
    hi.WHY.worseYes(4, ["W"]),
    "सभी 4 सीटें भर चुकी हैं। जिन्हें सीट मिली, उन सबकी रैंक आपसे बेहतर है, सिवाय उस सीट के जो महिलाओं के लिए आरक्षित है। उस सीट वाले उम्मीदवार के बिना विशेष श्रेणी की कम सीटें भरतीं।",
  );
  const said = [en, hi].flatMap(({ SETTLED, WHY }) => [...Object.values(SETTLED.by), WHY.worseYes].map(String)).join();
  assert.doesNotMatch(said, /sheet|शीट|what you hold|आपकी विशेष श्रेणी/);
});

test("where ranks were joined, each is said in its own list, and a distance within one list alone", () => {
  const at = (rank, of) => ({ rank, of });
  const open = [{ traits: "", ...at(8017, "CRL") }, { traits: "W", ...at(9846, "CRL") }, { traits: "D", ...at(17, "CRL-PwD") }];
  const own = at(5052, "SC list");
  assert.equal(en.CUTOFFS.ends(open), "8,017 in CRL · women 9,846 · persons with disabilities 17 in CRL-PwD");
  assert.equal(hi.CUTOFFS.ends(open), "8,017 (CRL) · महिलाओं को 9,846 · दिव्यांगों को 17 (CRL-PwD)");
  assert.equal(
    en.WHY.compare({ step: "OPEN", lines: open, held: open, best: open[0], own, isWithin: false }),
    "Open seats end at place 8,017 in CRL (women 9,846, persons with disabilities 17 in CRL-PwD). Yours is 5,052 in SC list, and that whole list comes behind CRL.",
  );
  const seats = [{ traits: "", ...at(3004, "SC list") }];
  assert.equal(en.WHY.compare({ step: "SC", lines: seats, held: seats, best: seats[0], own, isWithin: false }), "SC seats end at place 3,004 in SC list. Yours is 5,052, 2,048 behind.");
  assert.equal(hi.WHY.compare({ step: "SC", lines: seats, held: seats, best: seats[0], own, isWithin: false }), "SC सीटें रैंक 3,004 (SC list) तक मिलीं। आपकी रैंक 5,052 है, 2,048 पीछे।");
  const before = "8,017 in CRL comes before your 5,052, because these seats go first to everyone who reached the common standard, and SC list has those who reached only its own.";
  assert.equal(en.WHY.before(open[0], own, "CRL"), before);
  assert.equal(en.WHY.before(seats[0], at(17, "CRL-PwD"), "CRL"), "3,004 in SC list comes before your 17, because these seats go first to everyone in SC list, and CRL-PwD has those who reached only its own standard.");
  assert.equal(en.LIKE.ahead(at(12, "CRL"), seats[0]), "12 in CRL");
  assert.equal(en.LIKE.ahead(at(3000, "SC list"), seats[0]), "3,000 in SC list, within by 4");
  assert.equal(hi.LIKE.ahead(at(3000, "SC list"), seats[0]), "3,000 (SC list), यानी 4 आगे");
  assert.deepEqual([en, hi].map((it) => it.LIKE.ends(own, open[2])), ["every place in SC list", "SC list की हर रैंक"]);
  assert.deepEqual([en.LIKE.ends(own, { ...seats[0] }), en.LIKE.ends(own, { traits: "", ...at(Infinity) })], ["3,004 in SC list", "any place"]);
  assert.equal(en.SEATS.place({ rank: null, behind: "CRL" }, false), "place behind all in CRL: behind yours");
});
