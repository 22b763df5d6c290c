/** The numbers to call in a text, as people write them in India: with +91, with a 0 before the area, of a mobile, or free of charge. This file knows nothing of the page. */

const PHONE = /(?<!\d)(?:\+\d(?:[ ()-]{0,2}\d){9,11}|\(?0(?:[ ()-]{0,2}\d){10}|[6-9](?:[ -]?\d){9}|1[89]0[0-9](?:[ -]?\d){6,7})(?!\d)/g;

/** Returns the pieces of a text in their order: a number to call has its address too, and any other piece is a text. */
export function withPhones(text) {
  const pieces = [];
  let at = 0;
  for (const { 0: number, index } of text.matchAll(PHONE)) {
    pieces.push(text.slice(at, index), { number, href: `tel:${number.replace(/[^+0-9]/g, "")}` });
    at = index + number.length;
  }
  return [...pieces, text.slice(at)].filter((it) => it !== "");
}
