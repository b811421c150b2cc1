// What a text has: its bytes by section and its names, or an error. Names and messages are shown with escapes, because a name may have what changes
// the order of a line.
import { escaped } from "../index.js";
import { goTo } from "./editor.js";
import { at, element } from "./elements.js";

const SECTIONS = ["custom", "type", "import", "function", "table", "memory", "global", "export", "start", "element", "code", "data", "data count", "tag"];

/** How many bytes of a section are shown at once. */
const MOST_BYTES = 2048;

export const result = at("result");

/** Shows an error in a box, with a button that leads to its place if it has one. */
export function showFault(title, message, more, place) {
  const shown = element("div", "", [element("strong", title), escaped(message), ...more]);
  shown.className = "error";
  result.append(shown);
  if (!place.line) return;
  const button = element("button", "Go to it");
  button.onclick = () => goTo(place);
  result.append(button);
}

export function showError({ message, number, snippet, ...place }) {
  showFault(number > 0 ? `error E${number}: ` : "error: ", message, snippet ? [element("pre", snippet)] : [], place);
}

/** Shows why the engine does not take the module. */
export function showRefusal({ message, ...place }) {
  const where = place.line ? ` The fault is at line ${place.line}.` : "";
  showFault("this browser does not run the module: ", message, [element("p", `The encoder does not check types, and this browser does.${where}`)], place);
}

export function showSections(bytes, sections) {
  showBytes(bytes, "header", 0, Math.min(8, bytes.length));
  for (const { id, name, start, end } of sections) showBytes(bytes, id === 0 ? `custom "${escaped(name ?? "")}"` : SECTIONS[id] ?? `section ${id}`, start, end);
}

function hexadecimal(bytes, start, end) {
  const lines = [];
  for (let row = start; row < end; row += 16) {
    const part = [...bytes.subarray(row, Math.min(row + 16, end))];
    const digits = part.map((byte) => byte.toString(16).padStart(2, "0")).join(" ");
    const letters = part.map((byte) => (byte > 31 && byte < 127 ? String.fromCharCode(byte) : "·")).join("");
    lines.push(`${row.toString(16).padStart(6, "0")}  ${digits.padEnd(47)}  ${letters}\n`);
  }
  return lines.join("");
}

function showBytes(bytes, name, start, end) {
  const size = end - start;
  result.append(element("h2", `${name} `, [element("small", `${size} byte${size === 1 ? "" : "s"}`)]));
  const shown = element("pre");
  result.append(shown);
  let from = start;
  const more = element("button", "More");
  more.onclick = () => {
    const to = Math.min(from + MOST_BYTES, end);
    shown.append(hexadecimal(bytes, from, to));
    from = to;
    if (from === end) more.remove();
  };
  if (size > MOST_BYTES) result.append(more);
  more.onclick();
}

export function showNames(names, count) {
  if (count === 0) return;
  result.append(element("h2", "names ", [element("small", `${count}`)]));
  const table = element("table");
  for (const { space, index, name } of names) {
    const row = table.insertRow();
    for (const cell of [space, index, `$${escaped(name)}`]) row.insertCell().textContent = cell;
  }
  result.append(table);
  if (count > names.length) result.append(element("p", `and ${count - names.length} more`));
}
