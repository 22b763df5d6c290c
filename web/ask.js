/** The one place that asks the server: same origin, one reply, and what went wrong where none came. */

// how long a reply may be silent: before it begins, and between two of its pieces
const SILENCE = 20;
const TRIES = 5;
const LONGEST_WAIT = 8000;
// how long an office is asked again of which the web server says that it is away or busy: a start over a full store takes a minute, and so do 2,000 visitors of one address
const PATIENCE = 120_000;
const PATIENT = new Set(["away", "busy"]);
// of a reply that breaks off after so many bytes, the page says so and does not ask for it again by itself
const LARGE = 65_536;
// Troubles after which the same request is sent again. That is safe: the office takes a request once and gives its receipt again.
const PASSING = new Set(["lost", "away", "busy", "keeper", "memory"]);

let ahead = 0;

/** Returns the time by the server's clock, as far as a reply of the office has said it: clocks of phones are often wrong. */
export const serverTime = () => Date.now() + ahead;

function keepTime(date) {
  const said = Date.parse(date ?? "");
  // the field has whole seconds
  if (!Number.isNaN(said)) ahead = Math.abs(said - Date.now()) < 2000 ? 0 : said - Date.now();
}

/** Returns the text of a reply, and calls `came` with the bytes of each piece. */
async function textOf(reply, came) {
  if (!reply.body) return "";
  const [reader, decoder] = [reply.body.getReader(), new TextDecoder()];
  let text = "";
  for (;;) {
    const { done, value } = await reader.read();
    if (done) return text + decoder.decode();
    came(value.length);
    text += decoder.decode(value, { stream: true });
  }
}

/** Returns the status and the text of a reply, how many bytes came, and when the file was written. The status is 0 where no whole reply came. `came` is called with the
 * bytes so far. */
async function fetched(path, { token, body, method = body ? "POST" : "GET", signal, seconds = SILENCE, came, cache = "no-store" }) {
  if (signal?.aborted) return { status: 0, text: "", size: 0 };
  const stop = new AbortController();
  const end = () => stop.abort();
  let [timer, size] = [null, 0];
  const heard = () => {
    clearTimeout(timer);
    timer = setTimeout(end, seconds * 1000);
  };
  signal?.addEventListener("abort", end);
  const headers = token ? { "X-Office-Token": token } : {};
  try {
    heard();
    const reply = await fetch(path, {
      method,
      headers,
      body: body ? JSON.stringify(body) : undefined,
      cache,
      credentials: "omit",
      redirect: "error",
      referrerPolicy: "no-referrer",
      signal: stop.signal,
    });
    if (cache === "no-store") keepTime(reply.headers.get("Date"));
    const text = await textOf(reply, (bytes) => {
      heard();
      size += bytes;
      came?.(size);
    });
    return { status: reply.status, text, size, modified: Date.parse(reply.headers.get("Last-Modified") ?? "") };
  } catch {
    return { status: 0, text: "", size };
  } finally {
    clearTimeout(timer);
    signal?.removeEventListener("abort", end);
  }
}

function parsed(text) {
  try {
    return JSON.parse(text);
  } catch {
    return null;
  }
}

function troubleOf(status, body, size) {
  if (status === 0) return size >= LARGE ? "broken" : "lost";
  if (status === 429) return "busy";
  if (status === 503 && body?.fault === "keeper") return "keeper";
  if (status === 502 || status === 503 || status === 504) return "away";
  if (status === 507) return "memory";
  if (status === 403) return "closed";
  if (status === 404) return "nopage";
  return "unread";
}

/** Returns what came: `body` is the office's reply, also a refusal, or null. Then `trouble` says why there is none, and `passing` whether
 * the same request may be answered later. */
function read({ status, text, size }) {
  const body = parsed(text);
  if (typeof body?.reply === "string") return { status, body, trouble: null, passing: false };
  const trouble = troubleOf(status, body, size);
  return { status, body: null, trouble, passing: PASSING.has(trouble) };
}

const pause = (ms) => new Promise((then) => setTimeout(then, ms));

/** Asks the office, and again after a trouble that may pass: for two minutes while it is away or busy, and otherwise a few times. `waiting`
 * is called before each further try. */
export async function ask(path, how = {}) {
  const began = Date.now();
  for (let tries = 1; ; tries++) {
    const got = read(await fetched(`/v1/${path}`, how));
    const isPatient = PATIENT.has(got.trouble) ? Date.now() - began < PATIENCE : tries < TRIES;
    if (!got.passing || !isPatient || how.signal?.aborted) return got;
    how.waiting?.(got);
    await pause(Math.min(LONGEST_WAIT, 500 * 2 ** (tries - 1)) * (0.7 + 0.6 * Math.random()));
  }
}

export const askState = (how) => ask("state", how);
export const askList = (round, programme, how) => ask(`list/${round}/${programme}`, how);
export const askCutoffs = (round, programme, how) => ask(`cutoffs/${round}/${programme}`, how);

/** Returns a published paper next to these pages, or null where there is none. A browser may keep a large one, and asks whether it is still the same. */
export async function paper(name, how = {}) {
  const { status, text } = await fetched(`/season/${name}`, { cache: "no-cache", ...how });
  return status === 200 ? text : null;
}

/** Returns the published places of who has a seat of a programme, by candidate, as the register spells them; or null where they are not published. */
export async function askPlaces(round, programme, institute) {
  const rows = institute && (await paper(`places-${round}-${institute}.csv`))?.split("\n").map((it) => it.split(","));
  return rows ? new Map(rows.filter(([code]) => code === programme).map(([, candidate, place]) => [Number(candidate), place])) : null;
}

/** Returns whether a paper is there. */
export async function hasPaper(name) {
  return (await fetched(`/season/${name}`, { cache: "no-cache", method: "HEAD" })).status === 200;
}

/** Returns a small paper that may change at any moment, always anew. */
export const freshPaper = (name) => paper(name, { cache: "no-store" });

/** Returns what a published JSON paper holds, or null where there is none. */
export const jsonPaper = async (name, get = paper) => parsed((await get(name)) ?? "");

/** Returns the counts of the open window that the web server has for the clerk, with the moment at which they were written, or null where it has none. */
export async function askCounts(how = {}) {
  const { status, text, modified } = await fetched("/clerk/counts.json", how);
  const found = status === 200 ? parsed(text) : null;
  return found && !Number.isNaN(modified) ? { ...found, at: modified } : null;
}

/** Returns the text of a round as `got.body.text`: from the paper with this name, or from the office where there is no such paper and the round has
 * a number there. A text that breaks off is asked for nowhere else. */
export async function askRound(name, round, how = {}) {
  const got = await fetched(`/season/${name}`, { cache: "no-cache", ...how });
  if (got.status === 200) return { status: 200, body: { reply: "round", round, text: got.text }, trouble: null, passing: false };
  return got.status === 0 || round === null ? read(got) : ask(`round/${round}`, how);
}
