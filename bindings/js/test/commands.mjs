// Writes the commands of each script, for tools/javascript: `node test/commands.mjs MODULE <SCRIPTS`. Scripts are a list in JSON. Bytes are
// written as hexadecimal digits, and an error as its fields.
import { readFileSync } from "node:fs";
import { commands, init, WatError } from "../index.js";

const encoder = new TextEncoder();
const fieldsOf = ({ number, message, line, column, start, end }) => [number, message, line, column, start, end];

/** What JSON has in place of a value. */
function plain(key, value) {
  if (value instanceof Uint8Array) return Buffer.from(value).toString("hex");
  return value instanceof WatError ? fieldsOf(value) : value;
}

/** The commands of a script, or its error. */
function answerOf(given) {
  try {
    return commands(given);
  } catch (error) {
    if (!(error instanceof WatError)) throw error;
    return error;
  }
}

await init(readFileSync(process.argv[2]));
const answers = JSON.parse(readFileSync(0, "utf8")).map((text) => [answerOf(text), answerOf(encoder.encode(text))]);
process.stdout.write(JSON.stringify(answers, plain));
