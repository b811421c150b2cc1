// Turns texts into bytes and names, and has the engine check them, beside the page, so that the page answers while a long text is read.
import { sections } from "../binary.js";
import { init, isProved, names, parse, version } from "../index.js";
import { placeOf } from "./fault_lines.js";
import { exportedFunctions } from "./signatures.js";

/** How many names, and how many functions, are shown. */
const MOST_NAMES = 300, MOST_FUNCTIONS = 50;

const ready = init();

/** What the engine says of a module: the functions that it exports, or why the engine does not take it, and where. */
async function checked(text, bytes, encode) {
  try {
    return { functions: exportedFunctions(bytes, await WebAssembly.compile(bytes)).slice(0, MOST_FUNCTIONS) };
  } catch ({ message }) {
    const [, offset] = /(?:@\+|at offset )(\d+)/.exec(message) ?? [];
    return { refusal: { message, ...(offset && typeof text === "string" && placeOf(text, bytes, Number(offset), encode)) } };
  }
}

onmessage = async ({ data: { text, hasNames } }) => {
  const encode = (given) => parse(given, { names: hasNames });
  try {
    await ready;
    const start = performance.now(), bytes = encode(text), took = performance.now() - start;
    // Bytes that are no text are a binary module, or an error.
    const every = typeof text === "string" ? names(text) : [], count = every.length;
    const told = { version: version(), isProved: isProved(), ...await checked(text, bytes, encode) };
    postMessage({ bytes, took, sections: sections(bytes), names: every.slice(0, MOST_NAMES), count, ...told }, [bytes.buffer]);
  } catch (error) {
    // The fields of an error are not copied with it.
    const { message, number = 0, line = 0, column = 0, start = 0, end = 0, snippet = "" } = error;
    postMessage({ error: { message, number, line, column, start, end, snippet } });
  }
};
