/* Carries who is signed in from one page of a visit to the next. It runs apart from the pages, so it outlives the page that is left, and what it holds is in memory alone: nothing is
 * written anywhere. After two minutes without a word of a page, or when somebody signs out, it is gone. It answers no request of a page. */
"use strict";
// a slow machine over a slow connection takes a while from one page to the next
const MOST = 120_000;
// a page that was put aside may send late what it meant to send before, and so may a machine that is busy
const LATE = 60_000;
const held = new Map();
const ended = new Set();

function put(name, value) {
  const kept = { value };
  held.set(name, kept);
  return new Promise((then) => {
    setTimeout(() => {
      if (held.get(name) === kept) held.delete(name);
      then();
    }, MOST);
  });
}

addEventListener("install", () => skipWaiting());
addEventListener("activate", (event) => event.waitUntil(clients.claim()));
addEventListener("message", (event) => {
  const { name, at, value, isOver } = event.data;
  if (isOver) {
    ended.add(name);
    held.delete(name);
  } else if (!value) {
    event.ports[0].postMessage(held.get(name)?.value ?? null);
  } else if (!ended.has(name) && Date.now() - at < LATE) event.waitUntil(put(name, value));
});
