// The text: a box that edits it, or a view of a long one, with the numbers of lines and a mark at a token.
import { at } from "./elements.js";

/** A text of more characters is shown and not edited, because a text box of a browser takes a second and more to lay out 2 MB. */
export const MOST_EDITED = 300_000;

/** How many characters of a line are laid out, of a long text and before a mark. */
const MOST_OF_LINE = 5_000;

export const box = at("text");
const view = at("view"), mark = at("mark");

// `starts` has where the lines of a text begin that is shown and not edited. `place` is the number of lines before the mark.
let text = "", starts, count = 1, place = 0;

const shown = () => (starts ? view : box);
const pixels = (name) => parseFloat(getComputedStyle(at("lines"))[name]);

/** Where the lines of a text begin. */
function startsOf(given) {
  const found = [0];
  for (let feed = given.indexOf("\n"); feed >= 0; feed = given.indexOf("\n", feed + 1)) found.push(feed + 1);
  return found;
}

/** Puts a text into the box, or shows it if it is long. */
export function put(given) {
  const isLong = given.length > MOST_EDITED;
  text = given;
  starts = isLong ? startsOf(given) : undefined;
  box.hidden = isLong;
  view.hidden = at("close").hidden = !isLong;
  box.value = isLong ? "" : given;
  box.setSelectionRange(0, 0);
  mark.hidden = true;
  countLines();
  if (isLong) at("space").style.height = `${count * pixels("lineHeight") + 24}px`;
  shown().scrollTop = 0;
  layOut();
}

/** The text that is edited. */
export function edited() {
  text = box.value;
  mark.hidden = true;
  countLines();
  layOut();
  return text;
}

function countLines() {
  count = (starts ?? startsOf(text)).length;
  at("editor").style.setProperty("--digits", String(count).length);
}

/** Shows what is in sight: lines of a long text, the numbers of lines, and the mark. */
export function layOut() {
  const height = pixels("lineHeight"), padding = pixels("paddingTop"), { scrollTop, scrollLeft, clientHeight } = shown();
  const first = Math.min(Math.floor(scrollTop / height), count - 1), last = Math.min(count, first + Math.ceil(clientHeight / height) + 1);
  at("numbers").textContent = Array.from({ length: last - first }, (_, index) => first + index + 1).join("\n");
  at("numbers").style.top = `${padding + first * height - scrollTop}px`;
  if (starts) showLines(first, last, height);
  if (mark.hidden) return;
  mark.style.top = `${padding + place * height - scrollTop}px`;
  mark.style.left = `${pixels("paddingLeft") - scrollLeft}px`;
}

function showLines(first, last, height) {
  const lines = starts.slice(first, last).map((start, index) => {
    const end = Math.min(starts[first + index + 1] ?? text.length, start + MOST_OF_LINE);
    return text.slice(start, end).replace(/\r?\n$/, "");
  });
  at("lines").textContent = lines.join("\n");
  at("lines").style.top = `${first * height}px`;
}

/** Marks a token of the text. The text is not copied behind the box: a long one would stall the page. */
export function showMark({ line, start, end }) {
  const lineStart = start ? text.lastIndexOf("\n", start - 1) + 1 : 0;
  mark.hidden = !line || !(starts || text.length === box.textLength) || start - lineStart > MOST_OF_LINE;
  if (mark.hidden) return;
  place = line - 1;
  at("before").textContent = text.slice(lineStart, start);
  at("token").textContent = text.slice(start, Math.min(end, start + MOST_OF_LINE)) || " ";
  layOut();
}

/** Puts the cursor at a place of the text, and that in sight. */
export function goTo({ line, start }) {
  shown().focus();
  box.setSelectionRange(start, start);
  shown().scrollTop = (line - 1) * pixels("lineHeight") - shown().clientHeight / 2;
}

for (const it of [box, view]) it.addEventListener("scroll", layOut);
addEventListener("resize", layOut);
