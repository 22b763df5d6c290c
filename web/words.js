/** Every sentence of the pages in English, in one place. A translation is another file with the same names, as words.hi.js is. The words of choices,
 * steps and refusals follow docs/RULES.md and docs/FORMATS.md; where they and the office's own words differ, the office's words count. */

// 2,50,000 and not 250,000, as candidates write it
const figure = (number) => number.toLocaleString("en-IN");
const count = (number, one, many = `${one}s`) => `${figure(number)} ${number === 1 ? one : many}`;
// `1st`, `22nd`, `113th`
const nth = (number) => `${figure(number)}${[11, 12, 13].includes(number % 100) ? "th" : (["th", "st", "nd", "rd"][number % 10] ?? "th")}`;
const listed = (words, last = "and") => (words.length < 2 ? words.join("") : `${words.slice(0, -1).join(", ")} ${last} ${words.at(-1)}`);

/** The fixed texts of the pages, by the names that the pages use in `data-word` and `data-label`. web/build puts them into the pages. */
export const LABELS = {
  site: "Seat allocation office",
  skip: "Skip to the content",
  pages: "Pages",
  navAnybody: "Lists and checks",
  navCandidate: "Candidates",
  navClerk: "Clerk",
  navHelp: "Help",
  noScript: "These pages need JavaScript, and it is off in this browser. All that is published can be read without it:",
  noScriptTexts: "the published rounds, lists and cutoffs as plain files",
  starting: "The page is loading. If nothing else appears, load it again, or use a newer browser: Chrome 92, Firefox 98, Safari 15.4 or later.",
  tooOld: "This browser is too old for these pages. Use a newer one: Chrome 92, Firefox 98, Safari 15.4 or later.",
  footer: "The office's program is proved. These pages, the web server and your browser are not. So each page shows the office's own words next to its explanation, and the office's words count.",
  access: "You can use these pages by keyboard alone, with a screen reader, at 400 % and in dark colours. If something does not work for you, tell the board.",
  refresh: "Look again",
  round: "Round",
  programme: "Programme",
  programmeHint: "its code, as in the choice list",
  step: "Kind of seat",
  candidate: "Candidate's number",

  anybodyHead: "Lists and checks - Seat allocation office",
  anybodyTitle: "Lists and checks",
  anybodyIntro: "Anyone may read who has which seat, and see the cutoffs. For that you need no token.",
  mineTitle: "Were you refused?",
  mineIntro: "Sign in with your number and token. The page then says for each programme of your list where its seats ended, how far your place is behind that, and whether the refusal is right.",
  mineCheck: "Check my refusal",
  haveLetter: "Do you have a letter from the board?",
  seeSeat: "See your seat",
  stateTitle: "How far the season is",
  likeTitle: "Which programmes are within my reach?",
  likeIntro: "Fill in what the register has of you. The page compares it with the published cutoffs of a round on this device, and sends it to nobody.",
  category: "Category",
  holds: "Your traits",
  places: "Your places in the merit lists",
  placesHint: "Leave a list empty if you have no place in it. Write a relaxed place with an R, such as 40R.",
  list1: "List 1",
  list2: "List 2",
  list3: "List 3",
  list4: "List 4",
  showLike: "Show the programmes",
  cutoffsTitle: "Cutoffs of all programmes",
  cutoffsIntro: "A cutoff is the worst place that a kind of seat would still admit in this round. It is the place that one candidate more would need, so it may differ from a closing rank, and it is “any place” while a seat is left.",
  search: "Search",
  searchHint: "words of a name, such as CSE NIT Goa, or a code; leave it empty for all",
  showCutoffs: "Show the cutoffs",
  listTitle: "Who has the seats of a programme",
  listHint: "its name, as your choice list has it, or its code",
  ownList: "or from your choice list",
  showList: "Show the seats",
  roundTitle: "The text of a round",
  roundIntro: "The seats of all candidates in a round, or the final admissions, as the office published them.",
  findNumber: "Find a candidate",
  findHint: "a candidate number, if you want one row",
  showRound: "Show the text",
  checkTitle: "For clerks and courts",
  checkOpen: "Check a refusal with the sheet of a step",
  checkIntro: "A candidate needs no sheet: “Check my refusal” above is enough. This check is for the clerk and for courts, because a sheet names all candidates and what they hold. A refusal is right if and only if the answer to both questions is no:",
  question1: "Do the protected seats need the candidate?",
  question2: "If not, is a free seat left for the candidate?",
  checkSheet: "To answer them, this page needs the sheet of the step: its seats, its protected seats, and all its candidates in merit order. The page works on this device and sends the sheet to nobody.",
  sheet: "Sheet of the step",
  sheetHint: "The first line is “step sheet 1”.",
  answerQuestions: "Answer the two questions",
  example: "Fill in an example",

  candidateHead: "Your seat and your answers - Seat allocation office",
  candidateTitle: "Your seat and your answers",
  signInTitle: "Sign in",
  number: "Your candidate number",
  numberHint: "the number in the board's letter, not your application number",
  token: "Your token",
  tokenForm: "letters and digits, in groups of four if you like; capital and small letters differ",
  tokenHint: "You stay signed in on all pages of the office in this tab, until you sign out, close the tab, or nobody touches it for 15 minutes. The token is only in memory, and nothing of it is stored on this device.",
  clerkTokenHint: "The token is only in the memory of this page, and nothing of it is stored on this device. The page forgets it when you leave the page or sign out.",
  showToken: "Show token",
  signIn: "Show my seat",
  signOut: "Sign out",
  letter: "Open your letter of allotment",
  letterView: "Your letter of allotment",
  letterPrint: "Print",
  letterClose: "Back to your seat",
  letterHint: "You need no printer here: save the letter, and print the file where there is one.",
  application: "Your application number",
  applicationHint: "for the letter and the receipts, since you signed in with the candidate number",
  addApplication: "Add it",
  entryTitle: "Your entry in the register",
  seatTitle: "Your seat",
  receiptsTitle: "Your receipts",
  whyTitle: "Why not another programme?",
  explain: "Explain each programme",

  helpHead: "Help - Seat allocation office",

  clerkHead: "The clerk's desk - Seat allocation office",
  clerkTitle: "The clerk's desk",
  clerkToken: "The clerk's token",
  clerkSignIn: "Sign in",
  clerkNoEnd: "No end of this window is announced, so candidates do not know when it closes. The program announce of the server tells the pages.",
  cutTitle: "Close the window",
  raiseTitle: "Add seats",
  raiseIntro: "More seats count from the next round on. Protected seats stay as they are. Seats can be added, but never taken away.",
  seats: "New number of seats",
  seatsHint: "in all, not how many more",
  raise: "Add the seats",
  deskSeatTitle: "A candidate's seat",
  showSeat: "Show the seat",
  deskReceiptsTitle: "Receipts of what you sent",
};

/** What is wrong with a field. */
export const FAULTS = {
  candidate: "A candidate number has 1 to 9 digits and does not begin with 0. It is in the board's letter.",
  application: "This looks like an application number. Sign in with the candidate number, which is in the board's letter too.",
  lookup: "This looks like an application number, and the lists have the board's shorter candidate numbers. To see your own seat, sign in as a candidate.",
  either: "Type your application number, or the candidate number that is in the board's letter.",
  pair: "No candidate has this application number with this token. Compare both character by character: 0 and o, 1 and l, capital and small letters.",
  ownApplication: "This is not your application number. Compare it with the board's letter.",
  token: "A token has 8 to 32 letters and digits.",
  signs: "A token has letters and digits only. Look at the sign that is neither.",
  slip: "The office does not know this token with this number. Compare them character by character: 0 and o, 1 and l, capital and small letters.",
  nobody: "The office knows no candidate with this number. Compare it with the board's letter.",
  code: "A programme code has 1 to 16 letters, digits and hyphens.",
  programme: "No programme is found for this. Type words of its name, as your choice list has it, or its code.",
  seats: "The new number is a whole number from 1 to 4,000.",
  round: "No round is published yet.",
  place: "A place is a number, with an R after it if it is relaxed.",
  noRank: "This list has no such place. Look which list your place is from.",
};

export const NO = "No, go back";
export const SHOW_TOKEN = LABELS.showToken;
export const HIDE_TOKEN = "Hide token";
export const TYPED = (signs, groups) => `${count(signs, "character")} typed${groups ? `: ${groups}` : ""}`;
export const SWITCH = {
  title: "Leave this page?",
  lines: ["The other page does not know your token. You have to sign in again afterwards."],
  yes: "Leave this page",
};
export const IDLE_WORDS = {
  title: "Are you still there?",
  lines: ["Nobody has touched this page for 13 minutes. In 2 minutes it signs you out and forgets your token."],
  stay: "Stay signed in",
};

/** The field for the number, where the board has published what finds a candidate by the application number. */
export const NUMBERS = {
  label: "Your application number",
  hint: "or the candidate number, if the board's letter has one",
};

/** Who is signed in, on a page that is not the candidate's own. */
export const VISIT = {
  signedIn: (cand) => `Signed in as candidate ${cand}.`,
  left: { idle: "The page signed you out, because nobody touched it for 15 minutes.", asked: "You are signed out. The page has forgotten your token." },
  lost: "You were signed in, but not on this page any more: you have signed out, or your browser did not pass it on. Sign in again with your token. What you have sent to the office is not lost.",
};

/** Whom to ask, where the board has published it. */
export const HELP = {
  ask: "If something is wrong, ask the board:",
  lost: "Did you lose your token, or do you not know your number? Ask the board:",
  nobody: "Did you lose your token, or do you not know your number? Ask the board that gave them to you.",
  unknown: "Ask the board that holds this season.",
};

// ---- the season

/** A programme or an institute with its name, where it has one that is published. */
export const named = (name, code) => (name ? `${name} (${code})` : code);

/** A programme as people call it: its name and the place where it is. */
export const called = (name, institute) => (institute ? `${name}, ${institute}` : name);

/** The holders of each trait. */
export const TRAITS = {
  W: "women",
  D: "persons with disabilities",
  X: "ex-servicemen",
  S: "sportspersons",
  F: "dependants of freedom fighters",
  L: "local candidates",
};

/** Those who hold all of some traits. */
const holders = (traits) => [...traits].map((it) => TRAITS[it]).join(" who are also ");

/** What a candidate holds, as the person would say it. */
export const HOLDS = {
  W: "woman",
  D: "disability",
  X: "ex-serviceman",
  S: "sports",
  F: "dependant of a freedom fighter",
  L: "local area",
};
export const HOLDS_NOTHING = "none";

export const CATEGORIES = {
  GEN: "General (GEN)",
  EWS: "Economically Weaker Sections (EWS)",
  OBC: "Other Backward Classes, non-creamy layer (OBC)",
  SC: "Scheduled Castes (SC)",
  ST: "Scheduled Tribes (ST)",
};

const STEPS = {
  OPEN: "open seats",
  EWS: "EWS seats",
  OBC: "OBC seats",
  SC: "SC seats",
  ST: "ST seats",
  D: "de-reserved seats",
};
const stepName = (step) => STEPS[step] ?? `seats (${step})`;

/** The name of a step at the head of a sentence or a field, for one seat where `seats` is 1. */
export const kindOfSeat = (step, seats = 2) => stepName(step).replace(/^[a-z]/, (letter) => letter.toUpperCase()).replace("seats", seats === 1 ? "seat" : "seats");

/** What the letter D means in the office's own words, where they have it in the place of a step. */
export const NOT_DISABILITY = "A de-reserved seat is one that a category left empty. The office's own words call it D, which has nothing to do with disability there.";

/** What stands for the mock round, which the office may publish before round 1. */
export const MOCK = "mock";
/** What stands for the special round, which the board may hold after the final admissions. */
export const SPECIAL = "special";
const roundName = (round) => ({ [MOCK]: "the mock round", [SPECIAL]: "the special round" })[round] ?? `round ${round}`;

/** How far the season is, sentence by sentence. */
export function phase({ now, rounds, published }) {
  if (now === 0) return ["No round is published yet.", "Nobody has a seat before round 1."];
  if (now > rounds) return [`The season is over. ${rounds === 1 ? "The only round is" : `All ${rounds} rounds are`} published, and the final admissions are made.`];
  return [
    `Round ${published} of ${rounds} is published, and window ${now} is open.`,
    now === rounds
      ? "This is the last window. When it closes, the final admissions are made."
      : `When the window closes, round ${now + 1} is published.`,
  ];
}

const WHEN = { day: "numeric", month: "long", year: "numeric", hour: "numeric", minute: "2-digit", timeZone: "Asia/Kolkata" };

/** A moment within a sentence: `5 pm on 2 December`. */
export function moment(ms) {
  const part = (options) => new Date(ms).toLocaleString("en-IN", { ...options, timeZone: WHEN.timeZone });
  const [hour, minute] = ["hour", "minute"].map((it) => Number(new Date(ms).toLocaleString("en-GB", { [it]: "2-digit", hour12: false, timeZone: WHEN.timeZone })));
  const clock = `${hour % 12 || 12}${minute ? `:${String(minute).padStart(2, "0")}` : ""} ${hour % 24 < 12 ? "am" : "pm"}`;
  return `${clock} on ${part({ day: "numeric", month: "long" })}`;
}

/** How much is left, in its two largest units. */
function left(ms) {
  const minutes = Math.max(1, Math.ceil(ms / 60_000));
  const [days, hours] = [Math.floor(minutes / 1440), Math.floor(minutes / 60) % 24];
  if (days) return `${count(days, "day")}${hours ? ` and ${count(hours, "hour")}` : ""}`;
  return hours ? `${count(hours, "hour")}${minutes % 60 ? ` and ${count(minutes % 60, "minute")}` : ""}` : count(minutes, "minute");
}

/** When the open window closes, as the office has announced it, and what is left of it. */
export const CLOSES = (window, end, ms) =>
  ms > 0
    ? `Window ${window} is announced to close on ${new Date(end).toLocaleString("en-IN", WHEN)}, Indian time. ${left(ms)} left.`
    : `The announced end of window ${window} has passed. It may close at any moment.`;

/** The same below a heading that names the end. */
export const LEFT = (window, end, ms) => (ms > 0 ? `${left(ms)} left. Hours are in Indian time.` : CLOSES(window, end, ms));

export const ASKING = "Asking the office …";
export const WAITING = "The office does not reply yet. The page asks again by itself.";
export const ARRIVING = (bytes) => `${figure(Math.ceil(bytes / 100_000) / 10)} MB have arrived …`;
export const NOTICE = "Notice of the office";
export const OWN_WORDS = "The office's own words";
export const SAVED = (name) => ["Saved as ", name, ". Look for it among the downloads of this device."];

/** A moment with its year, by the clock of India. */
export const MOMENT = (ms) => `${new Date(ms).toLocaleString("en-IN", WHEN)}, Indian time`;

/** What the office's own words say. */
export const OWN = {
  head: ({ cand, application, time }) => `What the office said on ${time}, of candidate ${cand}${application ? ` with the application number ${application}` : ""}. Its own lines are always in English, and they are what a court compares.`,
  seat: ({ round, seat, kind, answer, isOpen }) =>
    seat ? `Your seat is in ${seat}, by round ${round}: ${kind}.${answer ? ` Your answer is ${answer}.` : isOpen ? " You have not answered yet." : ""}` : round ? `You have no seat by round ${round}.` : "You have no seat, because no round is published yet.",
  register: (category, traits, places) => `Your entry in the register: the category is ${category}, and the traits are: ${traits}. ${places.length ? `Your places: ${places.join("; ")}.` : "You have no place in any merit list."}`,
  choices: (programmes) => `Your choice list: ${programmes.map((it, at) => `${at + 1}. ${it}`).join("; ")}.`,
  noChoices: "Your choice list is empty.",
  noted: ({ window, turn, answer }) => `In window ${window} the office took ${answer} as your ${nth(turn)} answer.`,
  why: (programme, round) => `The office's reason for ${programme} in round ${round}, word for word. What it says is above.`,
  refused: (programme, round) => `The office's reason for ${programme} in round ${round}, and its cutoffs, word for word. What they say is above.`,
};

// ---- cutoffs

/** A rank with its list of ranks, where a merit list has several and it is not `said`: `3,004 in Rank SC`. */
const ranked = ({ rank, of }, said = null) => `${rank === Infinity ? "any place" : figure(rank)}${of && of !== said ? ` in ${of}` : ""}`;

/** The ranks of some lines, each with its list of ranks where that is another one than before. */
const ranksOf = (lines) => lines.map((it, at) => ranked(it, lines[at - 1]?.of));

/** Where a kind of seat ends, for everybody and for those who hold traits: `8,017 · women 9,846`. */
const ends = (lines) => ranksOf(lines).map((it, at) => (lines[at].traits ? `${holders(lines[at].traits)} ${it}` : it)).join(" · ");

/** The same as a sentence about a kind of seat: `Open seats end at place 8,017 (women 9,846).` */
function endOf(step, lines, isAll = true) {
  const [first, ...others] = ranksOf(lines);
  if (lines[0].traits) return `${kindOfSeat(step)} end at place ${[first, ...others].map((it, at) => `${it} for ${holders(lines[at].traits)}`).join(", ")}${isAll ? ", and admit nobody else" : ""}.`;
  const more = others.map((it, at) => `${holders(lines[at + 1].traits)} ${it}`).join(", ");
  return `${kindOfSeat(step)} ${lines[0].rank === Infinity ? "admit any place" : `end at place ${first}`}${more ? ` (${more})` : ""}.`;
}

/** How the lists of ranks follow each other in a merit list. */
export const IN_ORDER = (lists) => `The office puts these lists one behind another: ${lists.join(", ")}. So each place in one of them is better than all places in those behind it.`;

export const CUTOFFS = {
  columns: ["Programme", "Institute", "Ends at place"],
  caption: (round, number) => `Cutoffs of ${roundName(round)}: ${count(number, "programme")}`,
  ends,
  more: (some, all) => `Show ${some} more of ${figure(all)}`,
  noneFound: "No programme is found for this.",
  noPaper: "The table of all cutoffs is not published here. Type the code of one programme, and the page asks the office.",
  nobody: "This programme admits nobody more.",
  about: (round) => `These numbers are about ${roundName(round)} and one person more.`,
  notSaid: "What these numbers do not say",
  caveats: () => [
    "Two newcomers within a cutoff may not both be admitted.",
    "For everybody in the round they decide about each programme that was sought. With one candidate more, others may move on and come back, so a newcomer within a cutoff may still get no seat.",
    "A cutoff means this place or a better one. Holding more traits never makes it stricter.",
    "Open (OPEN) and de-reserved (D) seats are for candidates of every category whose place is not relaxed. The seats of a category are for its members alone.",
    "A candidate who chose slide or freeze may be within the cutoff of a programme that they no longer sought.",
  ],
  save: "Save the table",
  saveClosing: "Save it with one column for each trait",
};

export const LIKE = {
  columns: ["Programme", "Institute", "Kind of seat", "Ends at", "Your place"],
  caption: (round, number) => `In ${roundName(round)}, ${count(number, "programme is", "programmes are")} within the reach of one person more like this`,
  none: (round) => `In ${roundName(round)}, no programme is within the reach of one person more like this.`,
  noPlace: "Fill in at least one place.",
  noPaper: "The cutoffs of all programmes, or the programmes themselves, are not published here. So the page cannot compare them.",
  first: "The kind of seat is the first, in the office's order, within whose cutoff you are. It is the one whose seat it would be.",
  of: (list) => `Which list is your place in ${list} from?`,
  // a cutoff in a list behind one's own admits every place of one's own, and its number is for others
  ends: (own, best) => (best.rank === Infinity || best.of === own.of ? ends([best]) : `every place in ${own.of}`),
  ahead: (own, best) => `${ranked(own)}${best.rank === Infinity || best.of !== own.of ? "" : best.rank === own.rank ? ", the last that is within" : `, within by ${figure(best.rank - own.rank)}`}`,
};

// ---- lists and rounds

export const SEATS = {
  summary: (step) =>
    `${count(step.seats, "seat")}. ${count(step.candidates, "candidate")} ${step.candidates === 1 ? "was" : "were"} considered, and ${count(step.rows.length, "is", "are")} admitted.`,
  protections: (honoured, all) =>
    all === null
      ? honoured === 0
        ? "No protected seat is filled."
        : `${count(honoured, "protected seat is", "protected seats are")} filled.`
      : all === 0
        ? "No seat is protected."
        : `${figure(honoured)} of ${count(all, "protected seat")} ${all === 1 ? "is" : "are"} filled.`,
  unfilled: (trait, left, all) =>
    `${all === 1 ? "The seat" : `${left} of ${count(all, "seat")}`} protected for ${TRAITS[trait]} ${left === 1 ? "is" : "are"} not filled, because the candidates considered cannot fill more protected seats in all. ${left === 1 ? "It counts as an ordinary seat" : "They count as ordinary seats"}.`,
  list: (step, seats) => `${kindOfSeat(step, seats)}: ${count(seats, "seat")}`,
  // a published picture does not show who has a disability
  protectedFor: (trait) => (trait === "D" ? "fills a protected seat" : `fills a seat protected for ${TRAITS[trait]}`),
  ordinary: "on an ordinary seat",
  candidate: "Candidate",
  rank: (rank) => `no. ${figure(rank)} on this list`,
  place: (it, isBetter) => `place ${it.rank === null ? `behind all in ${it.behind}` : ranked(it)}${isBetter === null ? "" : isBetter ? ": better than yours" : ": behind yours"}`,
  you: "this is you",
  lettersSay: "A box says which protected seat a candidate fills. It does not say that the candidate was admitted because of it.",
  empty: "empty",
  emptyWhy: (step, isMoved) => {
    const all = step.candidates === 0 ? "nobody was considered here" : "everyone who was considered here has a seat";
    if (isMoved) return `What is empty here became the de-reserved seats below, because ${all}.`;
    return ["OPEN", "D"].includes(step.name) ? `Not all seats are filled, because ${all}.` : `Not all seats are filled, because they are for this category alone, and ${all}.`;
  },
  unfilledOthers: "Protected seats for others that are not filled",
  moreEmpty: (left) => `${count(left, "more seat is", "more seats are")} empty.`,
  more: (left) => `Show ${count(left, "more seat")}`,
  without: (steps) => `There are no ${listed(steps.map(stepName), "or")} here.`,
  title: (round, programme) => `${programme}, round ${round}`,
  which: (number) => `${count(number, "programme fits", "programmes fit")} this. Which one do you mean?`,
  moreMeant: (some, left) => `Show ${some} more of ${figure(left)}`,
  institute: (institute) => `Save all lists of ${institute}`,
  nothing: "This programme has no seats.",
  wrong: (fault) => `Something is wrong with this list: ${LIST_FAULTS[fault.key](fault)} Show it to the office.`,
  unread: "This page cannot read the list. These are the office's own words.",
};

/** What can be wrong with a list by itself, or with the refusal of somebody by it. */
export const LIST_FAULTS = {
  empty: () => "a seat is empty, although a candidate was considered for it and is not admitted.",
  crowded: () => "more candidates are admitted than the step has seats or candidates.",
  letters: (it) => `${it.letters} protected seats are named, but the line “honoured” says ${it.honoured}.`,
  over: (it) => `more seats are named as protected for ${TRAITS[it.trait]} than there are.`,
  unfilled: (it) => `a seat protected for ${TRAITS[it.trait]} is filled by nobody, and you are one of them.`,
  bymerit: (it) => `candidate ${it.id} has a worse place than yours and fills no protected seat.`,
  sametrait: (it) => `candidate ${it.id} has a worse place than yours and fills a protected seat that you could fill too.`,
};

/** Those for whom some seats are protected, or words for a trait that nothing names: `women or sportspersons`. */
const anyOf = (traits) => (traits.length ? listed([...traits].map((it) => TRAITS[it]), "or") : "a trait that you do not hold");

const admittedAll = (seats) => (seats === 1 ? "the candidate admitted has" : "everyone admitted has");
const DECIDED = (isWithin) => `The cutoffs above decide this${isWithin === null ? "" : isWithin ? ", and your place reaches one of them" : ", and your place reaches none of them"}.`;
export const SETTLED = {
  right: "the refusal is right, because ",
  wrong: "something is wrong: ",
  open: "",
  by: {
    notrait: (seats, { held }) => `${seats === 1 ? "the seat is not" : "no seat of this kind is"} protected for ${anyOf(held)}, and ${admittedAll(seats)} a better place.`,
    traitless: (seats) => `you hold no trait, and ${admittedAll(seats)} a better place.`,
    allfilled: (seats) => `the list shows every protected seat as filled, and ${admittedAll(seats)} a better place.`,
    needed: (_, { by, isWithin }) =>
      `the last candidate on this list has a worse place than yours, and ${SEATS.protectedFor(by.trait)}. That is right if with you instead fewer protected seats would be filled. ${DECIDED(isWithin)}`,
    others: (seats, { by, isWithin }) => `${admittedAll(seats)} a better place, and all seats protected for ${anyOf(by.traits)} are filled. Another protected seat is not filled. ${DECIDED(isWithin)}`,
  },
};

export const ROUND = {
  option: (round, rounds) => (round === MOCK ? "Mock round" : round === SPECIAL ? "Special round" : round > rounds ? "Final admissions" : `Round ${round}`),
  summary: (round, rounds, rows) =>
    round > rounds ? `${count(rows, "candidate is", "candidates are")} admitted.` : `${count(rows, "candidate has", "candidates have")} a seat in ${roundName(round)}.`,
  mock: "The mock round is a trial with the lists of today. Nobody has a seat by it, and round 1 may differ.",
  cut: (shown, all) => `The box has the first ${count(shown, "line")} of ${figure(all)}. Save the text to read all of it.`,
  save: "Save the text",
  word: "The text word for word",
  found: (id, programme, step, isFinal) => `Candidate ${id} ${isFinal ? "is admitted to" : "has a seat in"} ${programme}, under ${stepName(step)}.`,
  notFound: (id) => `Candidate ${id} has no seat in this text.`,
  missing: "The text broke off while it was on its way. It is long, so the page does not ask for it again by itself. Press the button to ask again.",
};

// ---- the two questions

const GOING_DOWN = "Go down the merit order, and keep each candidate who, with those kept so far, can fill one protected seat more.";
export const QUESTIONS = {
  columns: ["Candidate", "Holds", "Kept so far", "With this candidate they can fill", "Needed, so kept?"],
  title1: (id) => `1. Do the protected seats need candidate ${id}?`,
  caption: (shown, all) => (shown < all ? `${GOING_DOWN} These are the last ${shown} of ${figure(all)} lines.` : GOING_DOWN),
  nobody: "nobody",
  nothing: "nothing",
  people: (number) => count(number, "candidate"),
  filled: (number, placement) =>
    number === 0
      ? "nothing"
      : placement
        ? placement.map((it) => `${it.trait}: ${it.ids.join(", ")}`).join("; ")
        : count(number, "protected seat"),
  yes: "yes",
  no: "no",
  needed: "Yes. The candidate must be on the list.",
  notNeeded: "No.",
  title2: (id) => `2. Is a free seat left for candidate ${id}?`,
  free: (sheet, it) =>
    `The step has ${count(sheet.seats, "seat")}, and ${it.honoured} ${it.honoured === 1 ? "protection is" : "protections are"} honoured. So ${it.free === 0 ? "no seat is" : count(it.free, "seat is", "seats are")} free.`,
  ahead: (id, ahead) =>
    `Of the candidates whom the protected seats do not need, ${ahead === 0 ? "none is" : count(ahead, "is", "are")} better than candidate ${id}.`,
  left: "Yes, a free seat is left. The candidate must be on the list.",
  admitted: (id) =>
    `Candidate ${id} must be on the list of this step. If the list does not name candidate ${id}, the list or the sheet is wrong. Bring both to the office.`,
  refused: (id) => `Candidate ${id} gets no seat in this step. If the list does not name candidate ${id}, that is right.`,
  unknown: (id) => `The sheet does not have candidate ${id}.`,
  unread: (line, kind) => `The page cannot read line ${line} of the sheet: ${SHEET_FAULTS[kind]}`,
};

const SHEET_FAULTS = {
  TooLong: "the sheet is longer than 16,777,216 signs.",
  BadFirstLine: "the first line must be “step sheet 1”.",
  BadLine: "after the first line come “seats,N”, then lines “protect,LETTER,N”, then lines “cand,NUMBER,LETTERS” in merit order.",
  RepeatedProtect: "an earlier line protects seats for the same letter.",
  RepeatedCandidate: "an earlier line has the same candidate.",
  ProtectionsExceedSeats: "more seats are protected than there are.",
  TooMany: "a sheet has at most 2,50,000 candidates.",
};

export const EXAMPLE = { sheet: "step sheet 1\nseats,2\nprotect,W,1\nprotect,D,1\ncand,1,-\ncand,2,WD\ncand,3,W\ncand,4,D\n", candidate: "4" };

// ---- a candidate

/** The candidate's own entry in the register. */
export const ENTRY = {
  check: "Check each line.",
  later: "The office works with this entry for the whole season.",
  open: "Show what the register has of you",
  seen: "What others can see of you",
  public: [
    "Where the board publishes rounds and lists, everybody can read your candidate number with your seat and its kind, and which protected seat you fill. The office's own lists name its trait by a letter, also that of disability. If the board publishes places too, your place is among them while you have a seat.",
    "Your entry in the register, your choice list, your answers and your receipts are for you and for the clerk. A court that checks the season gets them too.",
    "The office knows no names, marks or addresses.",
  ],
  fields: { category: "Category", traits: "Your traits", place: (list) => `Place in ${list}` },
  list: (number) => `merit list ${number}`,
  // the category GEN has no seats of its own
  place: (own, isCommon, category) =>
    `${ranked(own)}, ${isCommon ? `a common place: it counts for open seats${category === "GEN" ? "" : " and for your category's"}` : "a relaxed place: it counts for the seats of your category alone"}`,
  short: (own, isCommon, list) => `${ranked(own)}${own.of ? "" : ` in ${list}`}${isCommon ? "" : ", relaxed"}`,
  joined: (place, own) => `The office's own words have ${place} for your place ${ranked(own)}: there the lists are one behind another.`,
  nowhere: "You have no place in any merit list.",
};

/** What a candidate without an admission reads of the special round: what it gave, until when lists are taken, or that there may be one. */
const afterEnd = ({ hasSpecial, lists }) => (hasSpecial ? SEAT.noSpecial : lists ? SEAT.lists(lists) : SEAT.special);

/** What a candidate's page says first, by the situation of the candidate. `by` is the announced end of the window, or null. */
export const STATE = {
  title: {
    early: () => "Is your entry right?",
    earlyEmpty: () => "You listed no programme, so no round can give you a seat.",
    waiting: ({ round }) => `You have no seat after round ${round}.`,
    waitingEmpty: () => "You listed no programme, so no round can give you a seat.",
    offered: ({ seat, by, isLate, isLast, window }) => `You have been offered ${seat}. Answer ${isLate ? "now" : by ? `by ${by}` : `before window ${window} closes`}, or you lose it${isLast ? "" : " and all later rounds"}.`,
    kept: ({ seat }) => `You have ${seat}.`,
    admitted: ({ seat }) => `You are admitted to ${seat}.`,
    without: () => "The rounds are over, and you have no seat.",
    special: ({ seat }) => `The special round gives you ${seat}.`,
    withdrawn: () => "You withdrew, and that is final.",
    noshow: () => "You lost your seat and all later rounds, because you did not answer your first offer in time.",
  },
  lead: {
    early: ({ by }) => [`The board can mend an error until round 1 is published${by ? `, which is announced for ${by}` : ""}. Afterwards the office cannot.`, "If all is right, you need not do anything."],
    earlyEmpty: ({ by }) => [`Ask the board now. It can mend this until round 1 is published${by ? `, which is announced for ${by}` : ""}, and not afterwards.`],
    waiting: ({ round, isLast, by }) => [
      "You need not do anything.",
      isLast ? `This was the last round, and the season ends when the window closes. ${SEAT.special}` : `You stay in the season, and round ${round + 1} comes when the window closes${by ? `, which is announced for ${by}` : ""}.`,
    ],
    waitingEmpty: () => [`The lists are fixed since round 1. ${SEAT.special}`],
    offered: ({ isLast }) => [isLast ? "This is the last window: each answer but a withdrawal makes this seat your final admission." : "This is your first offer."],
    kept: ({ choice, isLast, isSame, window, by }) => [
      isLast ? "It becomes your final admission when this window closes." : `Your answer is ${choice}, and it holds until you change it.`,
      `You need not do anything. ${isSame ? "You can still withdraw" : "You can change your answer"} until ${by ?? `window ${window} closes`}.`,
    ],
    admitted: () => ["This admission is final.", "Next, open your letter to print or save it, and follow the notices of the board and of the institute: they say when and where you report."],
    without: (given) => [afterEnd(given)],
    special: () => ["Follow the notices of the board and of the institute: they say when and where you report."],
    withdrawn: (given) => [afterEnd(given)],
    noshow: (given) => [afterEnd(given)],
  },
  moved: (from, to, seat) => `You moved up: from your ${nth(from)} choice to your ${nth(to)} choice. The seat at ${seat} is no longer yours.`,
  first: (to) => `It is your ${nth(to)} choice.`,
};

export const CHOICES = {
  freeze: {
    name: "Freeze",
    line: ({ isSame }) => (isSame ? "Keep this seat." : "Keep this seat, and look for no other."),
    does: ({ isSame, isLast }) => [isLast ? "Keep this seat. It becomes your final admission." : isSame ? "Keep this seat." : "Keep this seat, and seek no other.", ...(isLast || isSame ? [] : ["When this window closes, you can no longer choose float or slide."])],
    yes: "Yes, freeze",
  },
  float: {
    name: "Float",
    line: ({ isSame, higher }) => (isSame ? "Keep this seat." : `Keep it, and move up if ${higher.length === 1 ? "the programme" : `one of ${count(higher.length, "programme")}`} higher on your list admits you.`),
    does: ({ isSame, isLast, higher }) =>
      isLast
        ? ["Keep this seat. It becomes your final admission, because no round follows in which you could move up."]
        : isSame
          ? ["Keep this seat."]
          : ["You keep this seat unless you move up. If you move up, you give it up.", "You seek every programme higher on your list:", higher, "You get one of these or keep this seat, and never a lower one."],
    yes: "Yes, float",
  },
  slide: {
    name: "Slide",
    line: ({ isSame, same }) =>
      isSame ? "Keep this seat." : !same ? "Keep it, and move up within this institute alone." : same.length ? `Keep it, and move up within this institute alone: ${count(same.length, "programme")}.` : "Keep it. Your list has nothing higher at this institute.",
    does: ({ isSame, isLast, same }) =>
      isLast
        ? ["Keep this seat. It becomes your final admission, because no round follows in which you could move up."]
        : isSame
          ? ["Keep this seat."]
          : [
              "Keep this seat, and seek only the programmes higher on your list at the same institute:",
              ...(same?.length === 0 ? ["Your list has none, so you keep this seat."] : same ? [same] : []),
              "When this window closes, you can no longer choose float.",
            ],
    yes: "Yes, slide",
  },
  withdraw: {
    name: "Withdraw",
    line: () => "",
    does: ({ seat }) => [
      seat ? `Give up your seat in ${seat}, and leave the season.` : "Leave the season. You will not be offered a seat in any of its rounds.",
      "A withdrawal is final: you cannot take it back, not even while this window is open. If the board holds a special round for vacant seats afterwards, you may hand in a list for it.",
    ],
    yes: "Yes, withdraw for good",
  },
};

/** How a candidate is while the season goes on. */
export const STANDINGS = {
  waiting: "You have no seat yet. You stay in the season, and you need not do anything.",
  offered: "This seat is your first offer, and you have not answered it.",
  freeze: "You keep this seat and seek no other (freeze).",
  float: "You keep this seat and seek every programme higher on your list (float).",
  slide: "You keep this seat and seek the programmes higher on your list at the same institute (slide).",
  withdrawn: "You withdrew from the season. That is final.",
  noshow: "You did not answer your first offer before its window closed, so you left the season.",
};

export const SEAT = {
  fields: { candidate: "Candidate", application: "Application number", seat: "Seat", final: "Final admission", special: "Seat by the special round", institute: "Institute", kind: "Kind of seat", choice: "On your list", before: "In the round before", place: (list) => `Your place in ${list}`, round: "Round", standing: "Status" },
  none: "none",
  choice: (at) => `your ${nth(at)} choice`,
  before: (at, seat) => `your ${nth(at)} choice: ${seat}`,
  final: "This admission is final.",
  noAdmission: "The rounds ended without an admission for you.",
  special: "If the board holds a special round for vacant seats, you may hand in a new list for it.",
  bySpecial: "The special round gave you this seat.",
  noSpecial: "You have no seat in the special round either.",
  lists: ({ by, isOver }) =>
    isOver ? `The board took lists for the special round until ${by}. If that round gives you a seat, this page shows it.` : `The board holds a special round for vacant seats. You may hand in a new list for it until ${by}.`,
  listsLink: "Make a list for the special round",
  listsPage: "/choices/",
  listsDoor: "You sign in there once more, with the same number and token.",
  noList: "You have no seat, and no round can give you one, because your choice list is empty.",
  lastKept: "You keep this seat. It becomes your final admission when this window closes.",
  changed: "Your seat or your answer has changed since this page showed it. Look again.",
};

export const ANSWER = {
  question: "Choose one answer",
  change: "You may change your answer",
  confirm: "Say that you want this seat",
  noNeed: "You need not answer again",
  withdrawOnly: "If you do not want a seat",
  noEnd: "No end is announced on this page: look for the time in the notices of the board.",
  narrow: (window) =>
    `You can change your mind until window ${window} closes, except for a withdrawal. After that, slide rules out float, and freeze leaves only withdraw.`,
  keepSeat: "Keep this seat",
  keepLine: ({ isLast }) => (isLast ? "It becomes your final admission." : "It is the first programme on your list, so no answer can bring you another one."),
  keepSure: "Keep this seat?",
  keepDoes: ({ isLast }) => [ANSWER.keepLine({ isLast }), "The receipt says freeze, which is the office's word for this answer."],
  keepYes: "Yes, keep it",
  same: (names) => `${listed(names)} ${names.length === 1 ? "keeps" : "keep"} this seat too`,
  details: "What each answer means",
  leave: "Give up this seat and leave",
  leaveSeason: "Leave the season",
  seat: (seat) => `Your seat: ${seat}.`,
  more: (number) => `and ${count(number, "more programme", "more programmes")}`,
  until: (by, window) => `You may change this answer until ${by ?? `window ${window} closes`}.`,
  now: "Your answer now",
  closed: (choice, left) => `${CHOICES[choice].name} is not open to you: your answer when the last window closed was ${left}.`,
  full: "The office has 16 answers from you in this window. It takes only a withdrawal now.",
  used: (turns) => `The office has ${count(turns, "answer")} from you in this window. It takes up to 16, and a withdrawal after them.`,
  sure: (choice) => `${CHOICES[choice].name}?`,
  sureTick: (seat) => (seat ? "I give up this seat for good." : "I leave the season for good."),
  sending: "Sending your answer …",
  taken: (choice) => `Your answer is ${CHOICES[choice]?.name ?? choice}. The office has taken it and keeps it.`,
  keep: "Keep this receipt: a court compares it with the papers of the office.",
  earlier: (choice) => `This is the receipt of an earlier answer. Your answer now is ${CHOICES[choice]?.name ?? choice}.`,
  unknown: "The page does not know whether your answer arrived. Send it again: the office takes the same answer only once, and then repeats its receipt.",
  again: "Send the same answer again",
  other: "Perhaps you answered in another window or on another device. Look at your answer below, and answer again if you still want to.",
  cameRound: (round, seat) => `Round ${round} came while you answered. ${seat ? `Your seat is now ${seat}.` : "You have no seat in it."}`,
  cameEnd: (seat) => `The final admissions came while you answered. ${seat ? `You are admitted to ${seat}.` : "You have no seat."}`,
  save: "Save the receipt",
  print: "Print",
  when: ({ seat, at, body: { window, turn } }) => `It came on ${at}${seat ? `, for your seat in ${seat}` : ""}. It is your ${nth(turn)} answer in window ${window}.`,
  facts: ({ cand, application, seat, at, body }) => [
    "Receipt of an answer",
    `Candidate: ${cand}`,
    ...(application ? [`Application number: ${application}`] : []),
    `Answer: ${CHOICES[body.choice]?.name ?? body.choice}`,
    ...(seat ? [`Seat: ${seat}`] : []),
    `Window: ${body.window}, the ${nth(body.turn)} answer in it`,
    `Came on: ${at}`,
  ],
  file: (facts, own, origin) => `${facts.join("\n")}\n\nThe office's own words:\n${own}\noffice ${origin}\n`,
  fileName: ({ cand, window, turn }) => `receipt-${cand}-window-${window}-turn-${turn}.txt`,
};

export const RECEIPTS = {
  columns: ["Window", "Number in it", "Answer", "Receipt"],
  caption: "Your answers, in the order in which the office took them",
  window: (window) => `Window ${window}`,
  none: "The office has no answer from you.",
  noTimes: "The office keeps the order of your answers, and no times. A receipt that you save when you answer has the time too.",
  file: (head, says, lines) => `${head}\n\n${says.join("\n")}\n\nThe office's own words:\n${lines.join("\n")}\n`,
  save: "Save all receipts",
  fileName: (cand) => `receipts-${cand}.txt`,
};

export const WHY = {
  listTitle: "Your choice list",
  list: "Your choice list:",
  emptyList: "Your choice list is empty.",
  first: (seat) => `You have ${seat}, the first programme on your list. So there is nothing to explain.`,
  heading: (place, programme, round) => `${place}. ${programme} (round ${round})`,
  asking: (programme) => `Asking about ${programme} …`,
  admitted: (round, step) => `Round ${round} gives you a seat here, under ${stepName(step)}.`,
  gone: { withdrawn: "You withdrew since then, so the seat is gone.", noshow: "You did not answer it in time, so the seat is gone." },
  better: (programme) => `You have a seat in ${programme}, which is higher on your list.`,
  notsought: (round) => [
    `You did not seek this programme in round ${round}, so it was not considered for you.`,
    "That is so after freeze, after slide if the programme is at another institute, and for everyone who has left the season.",
  ],
  refused: "You were refused here.",
  considered: "You were considered for these seats:",
  noSeats: "there are no such seats.",
  worseNo: (seats) =>
    seats === 1 ? "the one seat is taken. The candidate admitted has a better place than yours." : `all ${figure(seats)} seats are taken. Everyone admitted has a better place than yours.`,
  // each candidate with a worse place fills a protected seat, and one that the refused candidate cannot fill
  worseYes: (seats, others) =>
    seats === 1
      ? `the one seat is taken. It is protected for ${anyOf(others)}, so it went to a candidate with a worse place than yours. Without that candidate, no protected seat would be filled.`
      : `all ${figure(seats)} seats are taken. Everyone admitted has a better place than yours, except on a seat protected for ${anyOf(others)}. Without the candidate on that seat, fewer protected seats would be filled.`,
  nowhere: "No kind of seat here was open to you.",
  // what a step admits, and how far that is from the place of the candidate
  compare: ({ step, lines, held, best, own, isWithin }) =>
    lines.length === 0 ? `${kindOfSeat(step)} admit nobody more.` : best === null ? `${kindOfSeat(step)} admit only ${listed(lines.map((it) => holders(it.traits)), "or")}, and you are not among them.` : `${endOf(step, held, held.length === lines.length)} ${isWithin ? WITHIN : BEHIND(best, own)}`,
  // why a place of one list comes before a smaller number of another one
  before: (best, own, first) =>
    `${ranked(best)} comes before your ${figure(own.rank)}, because these seats go first to everyone ${best.of === first ? "who reached the common standard" : `in ${best.of}`}, and ${own.of} has those who reached only ${best.of === first ? "its own" : "its own standard"}.`,
  allCutoffs: "All cutoffs of this programme, also those for others",
  further: "The other kinds of seats do not admit you either:",
  relaxed: "Open and de-reserved seats are not for you here, because your place is relaxed: it counts for the seats of your category alone.",
  counts: (own, list) => `Here your place in ${own.of ?? list} counts: ${figure(own.rank)}.`,
  within: "By its cutoffs this programme would admit you. Something is wrong: show the cutoffs and the reason to the office.",
  whichPlace: "This page does not know which of your places counts at this programme. Compare yours with its published cutoffs:",
  line: ({ step, lines }) => endOf(step, lines),
  cutoffsAre:
    "You took part in this round and sought this programme. So it has to admit you if your place reaches a cutoff above, and only then. It reaches none, so by these numbers it is right that you have no seat here.",
  checked: "What this page finds from the published list:",
  seats: (programme) => `Who has the seats of ${programme}`,
  next: (number) => `Explain the next ${number}`,
  below: (programme) => `You have ${programme}. The programmes below it on your list do not matter while you have it.`,
  yours: (own) => `Your place there is ${ranked(own)}. At the kinds of seats for which you were considered, each box says whether its place is better.`,
  noPlaces: "The board has not published the places of these candidates, so each box has the order on the list. The cutoffs above are what you can compare with your own place.",
  noList: "This page cannot read the published list.",
  unread: "This page cannot read the reason. These are the office's own words.",
  noCutoffs: "This page cannot read the cutoffs of this programme.",
  toAnswers: "Back to your answers",
  toTop: "Back to the top",
  save: "Save all of this for a complaint",
  saveHint: "One file in sentences, with your entry, your list, your receipts, the reasons and the cutoffs, and below them the office's own words. Your token is not in it.",
  fileName: (cand, round) => `complaint-${cand}-round-${round}.txt`,
};

const WITHIN = "Yours is within.";
const BEHIND = (best, own) =>
  own.of === best.of
    ? `Yours is ${figure(own.rank)}, ${figure(own.rank - best.rank)} behind${best.traits ? ` the ${figure(best.rank)} for ${holders(best.traits)}` : ""}.`
    : `Yours is ${ranked(own)}, and that whole list comes behind ${best.of}.`;

/** The file for a complaint. */
export const COMPLAINT = {
  title: (cand, round) => `Candidate ${cand}: for a complaint about round ${round}`,
  facts: ({ application, titles: [board, season], origin, time }) => [
    ...(board ? [`Board: ${board}`] : []),
    ...(season ? [`Season: ${season}`] : []),
    ...(application ? [`Application number: ${application}`] : []),
    `Saved on ${time}, from ${origin}`,
  ],
  own: "What is wrong, in the candidate's own words",
  ownSpace: "..",
  known: "What the office knows of the candidate",
  says: "The page says these sentences to the candidate. It makes them from the office's own words, which are at the end and which count.",
};

/** A letter of allotment, for the screen, for paper and as a file. */
export const LETTER = {
  title: (isFinal) => (isFinal ? "Letter of final admission" : "Letter of allotment"),
  fields: {
    season: "Season",
    board: "Board",
    candidate: "Candidate number",
    name: "Name",
    application: "Application number",
    programme: "Programme",
    institute: "Institute",
    kind: "Kind of seat",
    category: "Category",
    traits: "Holds",
    place: (list) => `Place in ${list}`,
    round: "Round",
    standing: "Status",
    receipt: "Receipt of the last answer",
    end: "End of the window",
    help: "Questions",
  },
  byHand: "to be filled in by hand",
  noReceipt: "none yet",
  use: "What this letter is for",
  uses: (isFinal, round) => [
    isFinal ? "It says which seat is yours in the end. Take it along when you report at the institute." : "It says which seat you have in this round. If a later round moves you up, open the letter again, because the new one then replaces this one.",
    round > 1 && "It replaces every letter of an earlier round.",
    "Write your name on it by hand, because the office knows no names.",
    "The institute has the list of the office. It finds your candidate number there, and compares the seat with this letter. If they differ, the list counts.",
    "The last lines are what the office replied. A court can ask the office for the same lines, and compare them.",
  ].filter(Boolean),
  own: "The office's own words",
  foot: (origin, time) => `Made at ${origin} on ${time}.`,
  save: "Save the letter",
  fileName: (cand, round) => `letter-${cand}-${round}.html`,
  replaces: (round, seat) => `You moved up in round ${round}, so this letter replaces your letters of earlier rounds. The seat at ${seat} is no longer yours.`,
  added: (number) => `Added: your application number ${number} is now on the letter and on your receipts.`,
  time: (ms) => new Date(ms).toLocaleString("en-IN", WHEN),
};

// ---- the clerk

export const CLERK = {
  signedIn: "You are signed in as the clerk.",
  left: { idle: "The page signed you out, because nobody touched it for 15 minutes.", asked: "You are signed out. The page has forgotten the token." },
  denied: "This is not the clerk's token.",
  closes: ({ now, rounds }) => [
    now < rounds ? `Closing window ${now} publishes round ${now + 1}.` : `Closing window ${now} makes the final admissions and ends the season.`,
    "The office refuses answers that arrive later.",
    ...(now > 0 ? ["A candidate who has not answered the first offer leaves the season."] : []),
  ],
  counts: ({ seats, unanswered }, at) =>
    `Of ${count(seats, "seat")} offered, ${count(unanswered, "has", "have")} no answer yet. These candidates leave the season if the window closes now. Counted on ${new Date(at).toLocaleString("en-IN", WHEN)}.`,
  clock: (ms) => `It is ${new Date(ms).toLocaleString("en-IN", WHEN)} by the server's clock, in Indian time.`,
  who: (number) => `Who has not answered: ${count(number, "candidate")}`,
  whoSave: "Save their numbers",
  whoFile: (window) => `unanswered-window-${window}.txt`,
  early: (end) => `The announced end is ${new Date(end).toLocaleString("en-IN", WHEN)}, and it has not come yet. Candidates rely on it.`,
  over: "All windows are closed. The season is over.",
  close: (window) => `Close window ${window}`,
  sureTitle: (window) => `Close window ${window}?`,
  sure: ({ now, rounds }) => [now < rounds ? `Round ${now + 1} is published at once.` : "The final admissions are made, and the season ends.", "You cannot undo this."],
  sureType: (window) => ({ text: String(window), label: `To confirm, type the number of the window: ${window}`, mode: "numeric" }),
  sureEarly: (window) => ({ text: `I close window ${window} before its announced end`, label: `To confirm, type this sentence: I close window ${window} before its announced end` }),
  sureYes: "Close the window",
  cutting: "The office is closing the window. With many candidates this takes a while.",
  published: ({ round, seated }) => `Round ${round} is published. ${count(seated, "candidate has", "candidates have")} a seat.`,
  final: ({ admitted }) => `The final admissions are made. ${count(admitted, "candidate is", "candidates are")} admitted.`,
  otherClerk: "Somebody closed the window before you. Nothing was done. Look at the state of the season above.",
  unknownCut: "The page does not know whether the window was closed. Ask again: the office closes it only once, and then repeats its receipt.",
  unknownRaise: "The page does not know whether the seats were added. Ask again: the office adds them only once, and then repeats its receipt.",
  again: "Ask again",
  noRaise: "No round follows, so no seats can be added.",
  raiseTitle: ({ programme, step, seats }) => `${kindOfSeat(step)} of ${programme}: ${count(seats, "seat")}?`,
  raiseLines: ({ window, seats }, before) => [
    ...(before === null ? [] : [`There were ${count(before, "such seat")} in round ${window}.`]),
    `There will be ${count(seats, "such seat")} from round ${window + 1} on.`,
    "You cannot undo this.",
  ],
  raiseYes: "Add the seats",
  raising: "Asking the office to add the seats …",
  raised: ({ programme, step, seats, window }) => `${kindOfSeat(step)} of ${programme}: ${count(seats, "seat")} from round ${window + 1} on.`,
  seat: (b, programme) => `Candidate ${b.cand} ${b.programme ? `has a seat in ${programme}, under ${stepName(b.step)}` : "has no seat"}.`,
  standing: {
    waiting: "The candidate waits for a first offer.",
    offered: "It is a first offer without an answer.",
    freeze: "The last answer is freeze.",
    float: "The last answer is float.",
    slide: "The last answer is slide.",
    withdrawn: "The candidate has withdrawn.",
    noshow: "The candidate did not answer the first offer.",
  },
  save: "Save these receipts",
  fileName: "receipts-clerk.txt",
};

// ---- refusals and troubles

const REFUSALS = {
  1: () => "The office knows no candidate with this number.",
  2: () => "The office knows no programme with this code.",
  3: () => "The token does not give access to this. Check the number and the token. Nothing was changed.",
  5: ({ kept }) => `The office has another answer from you for this turn: ${kept}. Nothing was changed.`,
  6: ({ now }) => `That window is closed, and now it is window ${now}. Nothing was changed.`,
  7: ({ now }) => `That window is not open. Now it is window ${now}. Nothing was changed.`,
  8: ({ last }) => `The office has other answers from you in this window. The last one has turn ${last}. Nothing was changed.`,
  9: ({ how }) => (how === "withdrawn" ? "You withdrew from the season. That is final." : "You did not answer your first offer in time, so you left the season."),
  10: () => "You have no seat, so you can only withdraw. Nothing was changed.",
  11: ({ standing }) => `This answer is wider than ${standing}, your answer when the last window closed. Nothing was changed.`,
  12: () => "The office has 16 answers from you in this window. It takes only a withdrawal now. Nothing was changed.",
  13: () => "This programme is not on the candidate's choice list.",
  14: ({ published }) => (published === 0 ? "No round is published yet." : `There is no such round. ${count(published, "round is", "rounds are")} published.`),
  15: () => "This is the last window. No round follows, so no seats can be added.",
  16: () => "De-reserved seats cannot be added: they are the seats that a category leaves empty.",
  17: ({ seats }) => `There are ${count(seats, "such seat")} already. Seats can only be added. Nothing was changed.`,
  18: ({ total }) => `A kind of seat has at most 4,000 seats at a programme, and all programmes together at most 10,00,000. Now they have ${figure(total)}. Nothing was changed.`,
};

/** What a refusal means. Its number and name are in the office's own words. */
export const refusal = (body) => REFUSALS[body.refused]?.(body) ?? "The office refuses this.";

const TROUBLES = {
  lost: "No reply came. Your connection may be down.",
  broken: "The reply broke off while it was on its way. Your connection may be slow or down.",
  away: "The office does not reply just now.",
  busy: "Too many people are asking just now. Wait a moment.",
  keeper: "The office could not confirm that it kept this, so it gives no receipt.",
  memory: "The office ran out of memory.",
  closed: "The web server does not give this to everybody. Ask the board if you need it.",
};

/** What is wrong with a reply: the office's refusal, or why there is no reply of the office. */
export const trouble = (got) =>
  got.body ? refusal(got.body) : TROUBLES[got.trouble] ?? `The office and this page do not understand each other (status ${got.status}).`;
export const LATER = "Try again in a moment.";
export const OLD = "What you see below is from before.";
