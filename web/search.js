/** Finds programmes by what a person types: words of their names, as any page shows them, or a code. This file knows nothing of the page. */

/** Returns the words of a text as they are compared: without capital letters, marks and accents, and a short form with dots as without them. */
const wordsOf = (text) =>
  text
    .normalize("NFKD")
    .toLowerCase()
    .replace(/[.'’\u0300-\u036f\u093c\u200c\u200d]/g, "")
    .split(/[^\p{L}\p{M}\p{N}]+/u)
    .filter(Boolean);

// the words that people leave out of a short form
const SMALL = new Set(["and", "of", "the", "for", "in", "with"]);

/** Returns the first letters of the words of a text, as in CSE for Computer Science and Engineering. */
const lettersOf = (text) =>
  wordsOf(text)
    .filter((it) => !SMALL.has(it))
    .map((it) => it[0])
    .join("");

/** Returns whether a typed word is a short form of a text: of its beginning, or of a part of it if the form has three letters, as NIT has. */
const isShort = (letters, one) => one.length > 1 && (letters.startsWith(one) || (one.length > 2 && letters.includes(one)));

const begins = ({ words }, one) => words.some((word) => word.startsWith(one));
const isShortOf = ({ letters }, one) => letters.some((it) => isShort(it, one));
const isIn = ({ words }, one) => words.some((word) => word.includes(one));

/** Returns those of which all typed words begin words of the texts; if there is none, those of which some typed words are short forms; and if there is none either, those in which they are
 * anywhere. `textsOf` gives the texts of one of them. */
export function found(all, textsOf, typed) {
  const wanted = wordsOf(typed);
  const known = all.map((it) => ({ it, words: textsOf(it).flatMap(wordsOf), letters: textsOf(it).map(lettersOf) }));
  for (const holds of [begins, (it, one) => begins(it, one) || isShortOf(it, one), isIn]) {
    const those = known.filter((it) => wanted.every((one) => holds(it, one)));
    if (those.length) return those.map(({ it }) => it);
  }
  return [];
}

/** Returns the programmes that a person may mean by a code or a name: the one with that code, else those with a name of these very words, else those that are found. */
export function meant(codes, textsOf, typed) {
  if (codes.includes(typed.trim())) return [typed.trim()];
  const same = wordsOf(typed).join(" ");
  const exact = codes.filter((code) => textsOf(code).some((it) => wordsOf(it).join(" ") === same));
  return exact.length || same === "" ? exact : found(codes, textsOf, typed);
}
