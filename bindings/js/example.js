// Prints the bytes of the modules of texts in hexadecimal, or their errors with line and column: `node example.js TEXT..`
// The status is 1 if a text has an error.
import { init, parse, WatError } from "./index.js";

const texts = process.argv.slice(2);
if (texts.length === 0) {
  console.error("usage: node example.js TEXT..");
  process.exit(2);
}
await init();
for (const text of texts) {
  try {
    console.log(Buffer.from(parse(text)).toString("hex"));
  } catch (error) {
    if (!(error instanceof WatError)) throw error;
    console.log(String(error));
    process.exitCode = 1;
  }
}
