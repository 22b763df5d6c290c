/** Finds the candidate number of somebody who signs in with the board's application number. The published paper has no application number: it has a slow
 * hash of each one together with its token, so it says a number only to who has both. tools/board_numbers.py makes it. */
import { freshPaper, jsonPaper } from "./ask.js";

const TURNS = 1_000;
const BITS = 64;

const signs = (text) => text.toUpperCase().replace(/[^A-Z0-9]/g, "");

/** Returns an application number as the paper compares it: without the zeros before a number, which a spreadsheet program drops. */
export const bare = (text) => signs(text).replace(/^0+(?=[0-9]+$)/, "");

/** Returns whether a text looks like what boards give to people who apply: it has more digits than a candidate number, or letters too. */
export const isLikeApplication = (text) => /^[A-Z]*[0-9]{6,}[A-Z0-9]*$/.test(signs(text)) && !/^[0-9]{1,9}$/.test(text);

/** Returns the paper about application numbers, or null where the board has published none, or this browser can make no hash. */
export async function numbersPaper() {
  const found = await jsonPaper("numbers.json", freshPaper);
  return typeof found?.salt === "string" && globalThis.crypto?.subtle ? found : null;
}

/** Returns the hash of an application number with a token, in hexadecimal digits. */
export async function hashed(salt, application, token) {
  const bytes = (text) => new TextEncoder().encode(text);
  const key = await crypto.subtle.importKey("raw", bytes(token), "PBKDF2", false, ["deriveBits"]);
  const bits = await crypto.subtle.deriveBits({ name: "PBKDF2", hash: "SHA-256", salt: bytes(salt + bare(application)), iterations: TURNS }, key, BITS);
  return [...new Uint8Array(bits)].map((it) => it.toString(16).padStart(2, "0")).join("");
}

/** Returns the candidate number of an application number with a token: 0 if they do not belong together, and null if the paper did not arrive. */
export async function candidateOf({ salt, digits }, application, token) {
  const hash = await hashed(salt, application, token);
  const part = await jsonPaper(`numbers/${salt}/${hash.slice(0, digits)}.json`);
  return part && (part[hash.slice(digits)] ?? 0);
}
