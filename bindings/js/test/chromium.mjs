// A headless Chromium, called by pipes, and a server for the files of the package.
import { spawn } from "node:child_process";
import { mkdtempSync, readFileSync, rmSync, writeFileSync } from "node:fs";
import { createServer } from "node:http";
import { tmpdir } from "node:os";
import { extname, join } from "node:path";
import { fileURLToPath } from "node:url";

const ROOT = fileURLToPath(new URL("..", import.meta.url));
const TYPES = { ".html": "text/html", ".css": "text/css", ".js": "text/javascript", ".mjs": "text/javascript", ".wasm": "application/wasm" };
const FLAGS = ["--headless", "--no-sandbox", "--disable-gpu", "--disable-dev-shm-usage", "--remote-debugging-pipe"];

/** Serves bindings/js on this machine, with the file `module` as rigyomad.wasm. */
export async function serve(module) {
  const server = createServer(({ url }, answer) => {
    const path = new URL(url, "http://localhost").pathname;
    try {
      const bytes = readFileSync(path === "/rigyomad.wasm" ? module : join(ROOT, path));
      answer.writeHead(200, { "content-type": TYPES[extname(path)] ?? "text/plain" }).end(bytes);
    } catch {
      answer.writeHead(404).end();
    }
  });
  await new Promise((done) => { server.listen(0, "127.0.0.1", done); });
  return { address: `http://127.0.0.1:${server.address().port}`, stop: () => server.close() };
}

/** Opens a page of a size in a browser of its own. */
export async function open(url, width, height) {
  const folder = mkdtempSync(join(tmpdir(), "chromium-"));
  const browser = spawn(process.env.CHROMIUM ?? "chromium", [...FLAGS, `--user-data-dir=${folder}`], { stdio: ["ignore", "ignore", "ignore", "pipe", "pipe"] });
  const ended = new Promise((done) => { browser.on("exit", done); });
  const waiting = new Map(), problems = [];
  let count = 0, session, left = "";
  browser.stdio[4].setEncoding("utf8").on("data", (part) => {
    const messages = (left + part).split("\0");
    left = messages.pop();
    for (const { id, result, error, method, params } of messages.map((it) => JSON.parse(it))) {
      if (method === "Runtime.exceptionThrown") problems.push(params.exceptionDetails.exception?.description ?? params.exceptionDetails.text);
      if (!waiting.has(id)) continue;
      const { done, fail } = waiting.get(id);
      waiting.delete(id);
      if (error) fail(new Error(error.message)); else done(result);
    }
  });
  browser.on("exit", () => waiting.forEach(({ fail }) => fail(new Error("the browser ended"))));
  const send = (method, params = {}) => new Promise((done, fail) => {
    count += 1;
    waiting.set(count, { done, fail });
    browser.stdio[3].write(`${JSON.stringify({ id: count, method, params, sessionId: session })}\0`);
  });
  const { targetId } = await send("Target.createTarget", { url: "about:blank" });
  session = (await send("Target.attachToTarget", { targetId, flatten: true })).sessionId;
  await send("Runtime.enable");
  await send("Page.enable");
  await send("Emulation.setDeviceMetricsOverride", { width, height, deviceScaleFactor: 1, mobile: false });
  await send("Page.navigate", { url });
  return {
    folder, problems, send,
    /** Presses a key, which has this code in Windows. */
    async press(key, code) {
      for (const type of ["rawKeyDown", "keyUp"]) await send("Input.dispatchKeyEvent", { type, key, code: key, windowsVirtualKeyCode: code });
    },
    /** What a function returns in the page, which is given an argument. */
    async run(body, given) {
      const expression = `(${body})(${JSON.stringify(given) ?? ""})`;
      const { result, exceptionDetails } = await send("Runtime.evaluate", { expression, awaitPromise: true, returnByValue: true });
      if (exceptionDetails) throw new Error(exceptionDetails.exception?.description ?? exceptionDetails.text);
      return result.value;
    },
    async picture(file) {
      writeFileSync(file, Buffer.from((await send("Page.captureScreenshot")).data, "base64"));
    },
    async close() {
      browser.kill();
      await ended;
      rmSync(folder, { recursive: true, force: true, maxRetries: 5, retryDelay: 200 });
    },
  };
}
