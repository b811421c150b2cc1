// What the package returns of texts, in node and in a browser.
import { names, parse, WatError } from "../index.js";

const encoder = new TextEncoder();
const hex = (bytes) => Array.from(bytes, (byte) => byte.toString(16).padStart(2, "0")).join("");

/** What a call returns, or the fields of its error, as in C. */
function answer(call) {
  try {
    return call();
  } catch (error) {
    if (!(error instanceof WatError)) throw error;
    return [error.number, error.start, error.line, error.column, error.message];
  }
}

/** The bytes of each text in hexadecimal, and how many names it has. */
export function answersOf(texts) {
  return texts.map((text) => {
    const bytes = encoder.encode(text);
    return [answer(() => hex(parse(bytes))), answer(() => names(bytes).length)];
  });
}
