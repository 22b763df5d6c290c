/** The line about who is signed in, on pages that ask nothing in a candidate's name: it keeps the sign-in of a visit until the candidate comes back to their own page, or signs out. */
import { $, onPress } from "./dom.js";
import { endVisit, isVisit, leaveForNext, leaveInTime, takeFromLast } from "./session.js";
import { VISIT } from "./words.js";

let visitor = null;
let changed = () => {};

async function comesBack() {
  if (!isVisit()) return;
  const found = await takeFromLast();
  if (!found) return isVisit() && lost();
  visitor = found;
  $("visit").hidden = $("sign-out").hidden = false;
  $("visit-text").textContent = VISIT.signedIn(found.cand);
  changed(visitor);
}

/** Says that the sign-in of this visit did not come to this page: nobody is signed out without a word. */
function lost() {
  endVisit();
  $("visit").hidden = false;
  $("visit-text").textContent = VISIT.lost;
  $("sign-out").hidden = true;
}

function leave(cause) {
  if (cause === "left") leaveForNext(visitor);
  else endVisit();
  const said = (visitor && VISIT.left[cause]) || "";
  visitor?.forget();
  visitor = null;
  changed(null);
  $("visit").hidden = !said;
  $("visit-text").textContent = said;
  $("sign-out").hidden = true;
}

/** Takes the visit of this tab from the page before, and keeps it for the next one. `then` is called with who is signed in, and with null when nobody is any more. */
export function startVisit(then = () => {}) {
  changed = then;
  onPress($("sign-out"), () => leave("asked"));
  leaveInTime(leave, () => visitor !== null);
  addEventListener("pageshow", (event) => event.persisted && comesBack());
  comesBack();
}
