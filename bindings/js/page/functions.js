// The functions that a module exports: fields for their arguments, and calls of them by a worker.
import { escaped } from "../index.js";
import { element } from "./elements.js";
import { argumentOf, hasField } from "./values.js";

/** How long a call of an export may take, in milliseconds. */
const MOST_TIME = 5000;

let runner;

/** Ends calls of another module. */
export function endCalls() {
  runner?.terminate();
  runner = undefined;
}

/** A field for an argument. */
function field(of, { type, name }, run) {
  const it = element("input");
  it.placeholder = name === undefined ? type : `${escaped(name)} ${type}`;
  it.ariaLabel = `${it.placeholder} of ${escaped(of)}`;
  it.disabled = !hasField(type);
  it.onkeydown = ({ key }) => { if (key === "Enter") run.click(); };
  return it;
}

/** Shows functions, with a button that calls each. */
export function showFunctions(functions, bytes, result) {
  if (functions.length === 0) return;
  const table = element("table"), log = element("pre");
  log.id = "log";
  for (const { name, parameters } of functions) {
    const row = table.insertRow(), run = element("button", "run");
    // Of an imported function the parameters are not known: it gets words, which the engine turns into numbers.
    const fields = (parameters ?? [{ type: "externref", name: "arguments" }]).map((it) => field(name, it, run));
    const values = () => (parameters ? fields.map((it, at) => argumentOf(parameters[at].type, it.value)) : fields[0].value.split(",").filter(Boolean));
    run.onclick = () => {
      try {
        call(bytes, name, values(), log);
      } catch ({ message }) {
        log.append(`${escaped(`${name}: ${message}`)}\n`);
      }
    };
    row.insertCell().textContent = escaped(name);
    row.insertCell().append(...fields);
    row.insertCell().append(run);
  }
  result.append(element("h2", "run"), table, log);
}

function call(bytes, name, values, log) {
  runner ??= new Worker(new URL("runner.js", import.meta.url), { type: "module" });
  const mine = runner;
  const timer = setTimeout(() => {
    mine.terminate();
    if (runner === mine) runner = undefined;
    log.append(`${escaped(name)}: ended after ${MOST_TIME / 1000} seconds\n`);
  }, MOST_TIME);
  mine.onmessage = ({ data }) => {
    clearTimeout(timer);
    log.append(`${data.map(escaped).join("\n")}\n`);
  };
  mine.postMessage({ bytes, name, values });
}
