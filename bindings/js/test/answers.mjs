// Writes what the package returns of each text, for tools/javascript and tools/test doors: `node test/answers.mjs MODULE [chromium] <TEXTS`. Texts are
// a list in JSON. With the word `chromium` a headless Chromium, or $CHROMIUM, calls the package.
import { readFileSync } from "node:fs";
import { init } from "../index.js";
import { answersOf } from "./answers_of.js";
import { open, serve } from "./chromium.mjs";

const [, , module, engine] = process.argv;
const texts = JSON.parse(readFileSync(0, "utf8"));

async function inNode() {
  await init(readFileSync(module));
  return answersOf(texts);
}

async function inChromium() {
  // any file of the server, which the package is loaded from
  const server = await serve(module), page = await open(`${server.address}/package.json`, 100, 100);
  try {
    return await page.run(async (given) => {
      const [{ init: start }, { answersOf: of }] = await Promise.all([import("/index.js"), import("/test/answers_of.js")]);
      await start();
      return of(given);
    }, texts);
  } finally {
    await page.close();
    server.stop();
  }
}

process.stdout.write(JSON.stringify(await (engine === "chromium" ? inChromium() : inNode())));
