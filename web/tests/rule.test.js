/** Cases for rule.js, cutoffs.js, numbers.js, ranks.js and search.js by themselves: node --test web/tests */
import assert from "node:assert/strict";
import { test } from "node:test";
import { byNearness, compared, firstWithin, readCutoffs, readCutoffTable, readPlace } from "../cutoffs.js";
import { bare, hashed } from "../numbers.js";
import { withPhones } from "../phone.js";
import { placeOf, rankAt, rankLists } from "../ranks.js";
import { Filling, grouped, heldBefore, isToken, lineOf, moved, openNow, readList, readSheet, readSpecial, readWhy, settledByList, situation, twoQuestions, Unreadable } from "../rule.js";
import { found as foundIn, meant } from "../search.js";

const state = (now, rounds = 3) => ({ reply: "state", now, rounds, published: Math.min(now, rounds) });
const seat = (standing, programme = "A") => ({ reply: "seat", cand: 2, round: 1, standing, programme, step: programme && "OPEN" });
const choices = (...programmes) => ({ reply: "choices", cand: 2, programmes });

test("the situation of a candidate", () => {
  const rows = [
    [seat("waiting", null), state(0), choices("A"), "early"],
    [seat("waiting", null), state(0), choices(), "earlyEmpty"],
    [seat("withdrawn", null), state(0), choices("A"), "withdrawn"],
    [seat("waiting", null), state(1), choices("A"), "waiting"],
    [seat("waiting", null), state(1), choices(), "waitingEmpty"],
    [seat("offered"), state(1), choices("A"), "offered"],
    [seat("offered"), state(3), null, "offered"],
    [seat("float"), state(2), choices("A"), "kept"],
    [seat("noshow", null), state(2), choices("A"), "noshow"],
    [seat("freeze"), state(4), choices("A"), "admitted"],
    [seat("waiting", null), state(4), choices("A"), "without"],
    [seat("noshow", null), state(4), choices("A"), "noshow"],
  ];
  for (const [its, at, list, wanted] of rows) assert.equal(situation({ seat: its, state: at, choices: list }), wanted);
});

test("the answers that are open", () => {
  const noted = (window, turn, choice) => ({ window, turn, choice });
  const open = (its, now, answers) => openNow(its, state(now), answers).open.join(" ");
  assert.equal(open(seat("offered"), 1, []), "freeze float slide withdraw");
  assert.equal(open(seat("freeze"), 1, [noted(1, 1, "freeze")]), "freeze float slide withdraw");
  assert.equal(open(seat("slide"), 2, [noted(1, 1, "slide")]), "freeze slide withdraw");
  assert.equal(open(seat("freeze"), 2, [noted(1, 1, "freeze")]), "freeze withdraw");
  assert.equal(open(seat("waiting", null), 1, []), "withdraw");
  assert.equal(open(seat("withdrawn", null), 1, [noted(1, 1, "withdraw")]), "");
  assert.equal(open(seat("float"), 4, []), "");
  assert.equal(open(seat("float"), 1, Array.from({ length: 16 }, (_, at) => noted(1, at + 1, "float"))), "withdraw");
});

test("how far somebody moved up", () => {
  const list = ["A", "B", "C", "D"];
  assert.deepEqual(heldBefore(list, "B"), ["B", "C", "D"]);
  assert.deepEqual(moved(list, "D", "B"), { from: 4, to: 2 });
  assert.equal(moved(list, "B", "B"), null);
  assert.equal(moved(list, "Z", "B"), null);
  assert.deepEqual(heldBefore(list, "Z"), []);
});

test("a place and the cutoffs of a programme", () => {
  const { round, code, lines } = readCutoffs("cutoffs 1 CSE\nOPEN - 8017\nOPEN W 9846\nOPEN D any\nSC - 40000\nend cutoffs\n");
  assert.deepEqual([round, code, lines.length], [1, "CSE", 4]);
  const at = (category, traits, place) => compared(lines, { category, traits }, readPlace(place)).map((it) => [it.step, it.best?.place ?? null, it.isWithin]);
  assert.deepEqual(at("GEN", "", "8017"), [["OPEN", 8017, true], ["D", null, false]]);
  assert.deepEqual(at("GEN", "W", "9000"), [["OPEN", 9846, true], ["D", null, false]]);
  assert.deepEqual(at("SC", "", "37368"), [["OPEN", 8017, false], ["SC", 40000, true], ["D", null, false]]);
  assert.deepEqual(at("SC", "D", "37368R"), [["SC", 40000, true]]);
  assert.equal(firstWithin(compared(lines, { category: "SC", traits: "D" }, readPlace("37368"))).best.place, Infinity);
  assert.equal(readPlace("0"), null);
  assert.deepEqual(readPlace("40R"), { place: 40, isCommon: false });
  assert.deepEqual(readCutoffTable("programme,institute,step,traits,place\nP,I1,OPEN,-,3\nP,I1,OPEN,W,any\n"), [
    { code: "P", institute: "I1", lines: [{ step: "OPEN", traits: "", place: 3 }, { step: "OPEN", traits: "W", place: Infinity }] },
  ]);
  assert.throws(() => readCutoffTable("programme,step\n"), Unreadable);
});

test("the nearest cutoff explains a refusal, so it comes first", () => {
  const { lines } = readCutoffs("cutoffs 1 CSE\nOPEN - 8017\nOBC W 20000\nSC - 40000\nend cutoffs\n");
  const order = (category, traits, place) => byNearness(compared(lines, { category, traits }, readPlace(place))).map((it) => it.step);
  assert.deepEqual(order("SC", "", "45000"), ["SC", "OPEN", "D"]);
  assert.deepEqual(order("OBC", "", "45000"), ["OPEN", "OBC", "D"]);
  assert.deepEqual(order("OBC", "W", "45000"), ["OBC", "OPEN", "D"]);
  assert.deepEqual(order("GEN", "", "45000"), ["OPEN", "D"]);
});

test("a place of several lists of ranks behind each other is a rank in one of them", () => {
  const lists = rankLists(new Map([["1-240000R", "Rank SC"], ["1-250000", "Rank PwD"], ["1-0", "Rank CRL"], ["2-0", "Rank of list 2"], ["3-1", "Rank OBC"], ["x", "none"]]));
  assert.deepEqual([...lists.keys()], [1, 3]);
  const at = (list, place) => [rankAt(lists.get(list), place)].flatMap(({ rank, of }) => [rank, of && of.name]);
  assert.deepEqual([at(1, 240000), at(1, 240001), at(1, 250017), at(2, 7), at(3, 1), at(3, 9)], [[240000, "Rank CRL"], [1, "Rank SC"], [17, "Rank PwD"], [7, null], [1, null], [8, "Rank OBC"]]);
  assert.deepEqual([rankAt(lists.get(1), Infinity), rankAt(undefined, 5)], [{ rank: Infinity, of: null }, { rank: 5, of: null }]);
  const [crl, sc, pwd] = lists.get(1);
  assert.deepEqual([crl, sc, pwd].map((it) => it.isRelaxed), [false, true, false]);
  assert.deepEqual([[crl, 240000], [crl, 240001], [sc, 5052], [sc, 10001], [pwd, 99]].map(([of, rank]) => placeOf(lists.get(1), of, rank)), [240000, null, 245052, null, 250099]);
});

test("the texts of the office", () => {
  const list = readList("list 1 P\nstep OPEN seats 3 candidates 4 admitted 2\nhonoured 1\n1 -\n2 W\nend list\n");
  assert.deepEqual(list.steps[0].rows, [{ id: 1, slot: "-" }, { id: 2, slot: "W" }]);
  assert.deepEqual(readSpecial("special seats 2 seated 1\nround 1 seated 1\nallot 4 E OPEN\nend round\n"), [{ id: 4, code: "E", step: "OPEN" }]);
  assert.throws(() => readSpecial("round 1 seated 1\nallot 4 E OPEN\nend round\n"), Unreadable);
  assert.deepEqual(readWhy("why 4 P refused\nOPEN seats 1 worse yes\nend why\n").steps, [{ name: "OPEN", seats: 1, worse: true }]);
  assert.equal(readWhy("why 4 P better Q\n").detail, "Q");
  assert.equal(lineOf({ reply: "noted", cand: 2, window: 1, turn: 1, choice: "float" }), "noted 2 window 1 turn 1 float");
  assert.equal(lineOf({ reply: "refused", refused: 6, name: "Late", now: 2 }), "refused 6 Late now 2");
  assert.equal(lineOf({ reply: "refused", refused: 9, name: "Gone", how: "noshow" }), "refused 9 Gone noshow");
});

test("the two questions of a refusal", () => {
  const sheet = readSheet("step sheet 1\nseats,2\nprotect,W,1\nprotect,D,1\ncand,1,-\ncand,2,WD\ncand,3,W\ncand,4,D\n");
  assert.deepEqual(sheet.people.filter((it) => twoQuestions(sheet, it.id).admitted).map((it) => it.id), [2, 3]);
  assert.equal(twoQuestions(sheet, 9), null);
  assert.throws(() => readSheet("step sheet 2\n"), (fault) => fault instanceof Unreadable && fault.line === 1 && fault.kind === "BadFirstLine");
  const filling = new Filling({ W: 1, D: 1 });
  assert.deepEqual([{ id: 1, traits: "WD" }, { id: 2, traits: "W" }, { id: 3, traits: "W" }].map((it) => filling.add(it)), [true, true, false]);
  assert.equal(filling.count, 2);
});

test("what a list settles by itself", () => {
  const step = (seats, candidates, honoured, ...rows) => ({ seats, candidates, honoured, rows: rows.map(([id, slot]) => ({ id, slot })) });
  assert.equal(settledByList(step(1, 2, 0, [1, "-"]), {}, "", false).verdict, "right");
  assert.equal(settledByList(step(1, 2, 0, [1, "-"]), {}, "", true).verdict, "wrong");
  assert.equal(settledByList(step(2, 2, 0, [1, "-"]), {}, "", false).by.key, "empty");
  assert.deepEqual(settledByList(step(1, 2, 1, [1, "W"]), { W: 1 }, "", true), { verdict: "open", by: { key: "needed", trait: "W" } });
  assert.deepEqual(settledByList(step(1, 2, 1, [1, "W"]), { W: 1, D: 1 }, "W", false), { verdict: "open", by: { key: "others", traits: ["W"] } });
});

test("an application number with its token, as tools/board_numbers.py hashes them", async () => {
  assert.equal(bare("jee-2026/0031 a"), "JEE20260031A");
  assert.deepEqual(["0026-0310", "00A1", "0"].map(bare), ["260310", "00A1", "0"]);
  for (const typed of ["JEE20260031A", "jee-2026/0031 a"]) assert.equal(await hashed("00ff", typed, "abcdefgh12345678"), "c4417e897f8f88b6");
  assert.notEqual(await hashed("00ff", "JEE20260031A", "abcdefgh12345679"), "c4417e897f8f88b6");
});

test("tokens as people type them", () => {
  assert.equal(grouped("abcdefgh12"), "abcd efgh 12");
  assert.deepEqual(["abcdefgh", "a".repeat(32), "short", "a b c d e f g h", "abcdefg-"].map(isToken), [true, true, false, false, false]);
});

test("a programme is found by what a page shows, in any language, and by a code", () => {
  const texts = {
    "NITK-CSE": ["NITK-CSE", "NITK", "CSE, NIT Surathkal", "सीएसई, एनआईटी सुरतकल", "National Institute of Technology Karnataka, Surathkal"],
    "IITG-CSE": ["IITG-CSE", "IITG", "CSE, I.I.T. Goa", "सीएसई, आईआईटी गोवा"],
    "IIITG-CSE": ["IIITG-CSE", "IIITG", "CSE, IIIT Goa", "सीएसई, आईआईआईटी गोवा (ज़िला)"],
  };
  const codes = Object.keys(texts);
  const finds = (typed) => foundIn(codes, (it) => texts[it], typed);
  assert.deepEqual(finds("NIT Surathkal"), ["NITK-CSE"]);
  assert.deepEqual(finds(" एनआईटी  सुरतकल"), ["NITK-CSE"]);
  assert.deepEqual([finds("surathkal, cse"), finds("nitk-cse"), finds("iit goa"), finds("ज़िला"), finds("जिला")], [["NITK-CSE"], ["NITK-CSE"], ["IITG-CSE"], ["IIITG-CSE"], ["IIITG-CSE"]]);
  assert.deepEqual([finds("rathkal"), finds(""), finds("NIT Goa")], [["NITK-CSE"], codes, []]);
  const means = (typed) => meant(codes, (it) => texts[it], typed);
  assert.deepEqual([means("IITG-CSE"), means("CSE, IIT Goa"), means("cse goa"), means("physics"), means(" - ")], [["IITG-CSE"], ["IITG-CSE"], ["IITG-CSE", "IIITG-CSE"], [], []]);
});

test("a programme is found by short forms of its names", () => {
  const surat = "Sardar Vallabhbhai National Institute of Technology, Surat";
  const texts = {
    4107: ["4107", surat, `Computer Science and Engineering (4 Years, Bachelor of Technology), ${surat}`],
    4112: ["4112", surat, `Mechanical Engineering (4 Years, Bachelor of Technology), ${surat}`],
    5101: ["5101", "Indian Institute of Information Technology, Gwalior", "Information Technology (5 Years, Dual Degree), Indian Institute of Information Technology, Gwalior"],
  };
  const finds = (typed) => foundIn(Object.keys(texts), (it) => texts[it], typed);
  assert.deepEqual([finds("CSE Surat"), finds("cse nit"), finds("SVNIT"), finds("ME NIT Surat"), finds("IIIT"), finds("it gwalior")], [["4107"], ["4107"], ["4107", "4112"], ["4112"], ["5101"], ["5101"]]);
  assert.deepEqual([finds("ECE Surat"), finds("computer"), finds("CSE Goa")], [[], ["4107"], []]);
});

test("numbers to call, and what is none", () => {
  const calls = (text) => withPhones(text).filter((it) => it.href).map((it) => it.href);
  const text = "Call 011 2345 6789 or +91-98765 43210 (10 am to 5 pm), (0832) 240 1234, 1800-11-2345 or 98765-43210.";
  assert.deepEqual(calls(text), ["tel:01123456789", "tel:+919876543210", "tel:08322401234", "tel:1800112345", "tel:9876543210"]);
  assert.equal(withPhones(text).map((it) => it.number ?? it).join(""), text);
  assert.deepEqual(calls("Until 02-12-2026 17:00, of 2,50,000 candidates 240310123456 and 1 800 in room 12, 9 to 17"), []);
  assert.deepEqual(withPhones("011 2345 6789 10 am"), [{ number: "011 2345 6789", href: "tel:01123456789" }, " 10 am"]);
});
