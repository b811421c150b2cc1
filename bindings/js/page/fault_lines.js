// Where in a text the instruction at an offset of its bytes is. Engines report such an offset if types do not match, and the encoder has no
// table of positions. So a `nop` is put before a token of the text: where the bytes then differ is where that token's code begins.
import { Reader, sections } from "../binary.js";

/** How many characters the search reads at most, which takes about a second: the encoder reads the whole text for each token that is tried. */
const MOST_READ = 5_000_000;

const CODE = 10;

/** Tokens of the text format, and comments. */
const TOKEN = /\(;[^]*?;\)|;;.*|"(?:[^"\\]|\\[^])*"|[()]|[^\s()";]+/g;

const NOP = "(nop)";

/** The start of the function body that has an offset. */
function bodyAt(bytes, offset) {
  const code = sections(bytes).find(({ id }) => id === CODE);
  if (!code || offset < code.content || offset >= code.end) return undefined;
  const reader = new Reader(bytes, code.content, code.end);
  return reader.list(() => reader.part()).find(({ end }) => offset < end)?.at;
}

/** How many bytes are the same at the ends of two modules. */
function sameAtEnd(one, other) {
  let count = 0;
  while (count < one.length && one[one.length - 1 - count] === other[other.length - 1 - count]) count += 1;
  return count;
}

/** The opening parenthesis of a closing one. */
function opening(tokens, closing) {
  let depth = 0;
  for (let at = closing; at >= 0; at -= 1) {
    depth += tokens[at][0] === ")" ? 1 : tokens[at][0] === "(" ? -1 : 0;
    if (depth === 0) return at;
  }
  return closing;
}

/** The last token whose code begins at an offset or before it, and not before a `start`. `encode` returns the bytes of a text. */
function lastToken(text, tokens, bytes, start, offset, encode) {
  let left = MOST_READ / text.length;
  const codeOf = ({ index }) => {
    left -= 1;
    try {
      return bytes.length - sameAtEnd(bytes, encode(text.slice(0, index) + NOP + text.slice(index)));
    } catch {
      return undefined; // no instruction may be there
    }
  };
  let low = 0, high = tokens.length, found;
  while (low < high) {
    const middle = (low + high) >> 1;
    let at = middle, code;
    while (left > 0 && at < high && (code = codeOf(tokens[at])) === undefined) at += 1;
    if (left <= 0) return undefined;
    if (code !== undefined && code <= offset) {
      if (code >= start) found = at;
      low = at + 1;
    } else high = middle;
  }
  return found;
}

/** The line and the token of the instruction at an offset of the bytes, if it is found. */
export function placeOf(text, bytes, offset, encode) {
  const start = bodyAt(bytes, offset);
  if (start === undefined) return undefined;
  const tokens = [...text.matchAll(TOKEN)].filter(([it]) => !it.startsWith("(;") && !it.startsWith(";;"));
  let at = lastToken(text, tokens, bytes, start, offset, encode);
  if (at === undefined) return undefined;
  // The code of a folded instruction comes after that of its operands: it is before the closing parenthesis.
  if (tokens[at][0] === ")") at = opening(tokens, at) + 1;
  const [token] = tokens[at], index = tokens[at].index;
  return { line: text.slice(0, index).split("\n").length, start: index, end: index + token.length };
}
