/** Who is signed in. Numbers and token are in the memory of a page alone, and in no address, log or storage. They are forgotten when somebody signs
 * out or does not touch the pages for a quarter of an hour. From one page of a visit to the next hold.js carries them, in memory too. */
import { askPerson, closeWarning } from "./dom.js";
import { IDLE_WORDS } from "./words.js";

const IDLE = 15 * 60 * 1000;
// two minutes before, the page asks whether somebody is there
const WARNING = 13 * 60 * 1000;
const TOUCHES = ["keydown", "input", "pointerdown", "wheel", "touchstart"];
// How long the next page asks for what the one before left. On a slow machine hold.js takes a while to answer at all, and the page before may still be going: so the page goes on for a
// moment after an answer that there is nothing, and for longer while there is no answer.
const SOON = 150;
const AFTER_NOTHING = 3_000;
const WITHOUT_ANSWER = 30_000;
const VISIT = "visit:";
const EVERY = 15_000;

/** A sign-in. `signal` ends the requests that are under way when it is forgotten. */
export class SignIn {
  #stop = new AbortController();

  constructor(token, known = {}) {
    this.token = token;
    Object.assign(this, known);
  }

  get signal() {
    return this.#stop.signal;
  }

  get isOver() {
    return this.#stop.signal.aborted;
  }

  forget() {
    this.token = null;
    this.#stop.abort();
  }
}

/** Calls `leave` with the cause when the page is left, so that Back shows nothing by itself, and after the idle time. Before that it asks whether
 * somebody is there, if `isIn` says that somebody is signed in. Timers may sleep with the machine, so the clock is looked at too when the page is seen
 * again. */
export function leaveInTime(leave, isIn) {
  let touched = Date.now();
  let timers = [];
  const idle = () => {
    closeWarning();
    leave("idle");
  };
  const look = () => {
    if (Date.now() - touched >= IDLE) idle();
  };
  const warn = () => {
    if (isIn()) askPerson(IDLE_WORDS, touch);
  };
  const touch = () => {
    look();
    closeWarning();
    touched = Date.now();
    timers.forEach(clearTimeout);
    timers = [setTimeout(warn, WARNING), setTimeout(idle, IDLE)];
  };
  for (const it of TOUCHES) addEventListener(it, touch, { passive: true, capture: true });
  document.addEventListener("visibilitychange", look);
  addEventListener("pageshow", look);
  addEventListener("pagehide", () => leave("left"));
  touch();
}

// ---- one visit over several pages

let worker = null;
let beat = null;

const tell = (message, ports = []) => worker?.postMessage({ name: window.name, at: Date.now(), ...message }, ports);

const kept = ({ cand, application, token }) => ({ value: { cand, application, token } });

/** Tells hold.js again and again who is signed in: a browser may put a page aside before its last message goes out. */
function holdOn(who) {
  const put = () => who.token && tell(kept(who));
  clearInterval(beat);
  beat = setInterval(put, EVERY);
  put();
}

/** Starts what carries a sign-in to the next page, and returns whether it can. Where a browser does not allow it, the next page says so, and asks for the token
 * again. The name of the tab says which visit it is, and opens nothing. It is there at once, so that the next page knows of the visit also if this one is left before it can carry. */
export async function carry(who) {
  window.name = VISIT + [...crypto.getRandomValues(new Uint32Array(4))].map((it) => it.toString(16)).join("");
  try {
    // the one address from which this page may start a script by name
    const address = globalThis.trustedTypes?.createPolicy("hold", { createScriptURL: () => "/hold.js" }).createScriptURL("") ?? "/hold.js";
    await navigator.serviceWorker.register(address);
    worker = (await navigator.serviceWorker.ready).active;
  } catch {
    worker = null;
  }
  if (!worker || !who.token) return false;
  holdOn(who);
  return true;
}

/** Leaves a sign-in for the next page of this tab, if this one is on a visit. */
export function leaveForNext(who) {
  clearInterval(beat);
  if (who?.token && isVisit()) tell(kept(who));
}

/** Ends the visit on all pages of this tab. */
export function endVisit() {
  clearInterval(beat);
  if (!isVisit()) return;
  tell({ isOver: true });
  window.name = "";
}

/** Returns whether this tab may be on a visit. */
export const isVisit = () => window.name.startsWith(VISIT);

/** Returns the sign-in that the page before left in this tab, or null. */
export async function takeFromLast() {
  const visit = window.name;
  if (!isVisit()) return null;
  try {
    worker = (await navigator.serviceWorker.getRegistration("/"))?.active ?? null;
    const found = worker && (await taken());
    // somebody may have signed in here meanwhile
    if (!found || window.name !== visit) return null;
    const who = new SignIn(found.token, { cand: found.cand, application: found.application });
    holdOn(who);
    return who;
  } catch {
    worker = null;
    return null;
  }
}

/** Asks for what the page before left, again and again, and returns it; or null if there is nothing, or no answer comes. */
function taken() {
  return new Promise((then) => {
    let ends = performance.now() + WITHOUT_ANSWER;
    let isAnswered = false;
    const heard = ({ data }) => {
      if (data) return then(data);
      if (!isAnswered) ends = performance.now() + AFTER_NOTHING;
      isAnswered = true;
    };
    const asks = () => {
      if (performance.now() > ends) return then(null);
      const { port1, port2 } = new MessageChannel();
      port1.onmessage = heard;
      tell({}, [port2]);
      setTimeout(asks, SOON);
    };
    asks();
  });
}
