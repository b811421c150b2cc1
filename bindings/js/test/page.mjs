// Tests the page in headless Chromium, or that of $CHROMIUM: `node test/page.mjs MODULE [PICTURES]`, which keeps pictures in a folder.
// The last line is 'N passed, M failed'.
import { existsSync, readdirSync, readFileSync } from "node:fs";
import { open, serve } from "./chromium.mjs";

const [, , module, pictures] = process.argv;
const SECONDS = 120;
const server = await serve(module);
const page = await open("about:blank", 1280, 700);
const pause = (time) => new Promise((done) => { setTimeout(done, time); });
let passed = 0, failed = 0, loads = 0;

function test(name, isSo, seen) {
  if (isSo) passed += 1; else failed += 1;
  if (!isSo) console.log(`FAILED ${name}: ${JSON.stringify(seen)}`);
}

/** Waits until a function returns something in the page. */
async function until(body, given) {
  for (const end = Date.now() + SECONDS * 1000; Date.now() < end; await pause(50)) {
    const value = await page.run(body, given);
    if (value) return value;
  }
  throw new Error(`not so after ${SECONDS} s: ${body}`);
}

const shown = () => until(() => document.documentElement?.dataset.shown);
const read = () => page.run(() => ({
  text: document.getElementById("text").value,
  state: document.getElementById("state").textContent,
  result: document.getElementById("result").innerText,
  mark: document.getElementById("mark").hidden ? null : document.getElementById("token").textContent,
}));

/** Opens the page anew, with a hash, and reads its result. */
async function load(hash = "") {
  loads += 1;
  await page.send("Page.navigate", { url: `${server.address}/page/index.html?${loads}${hash}` });
  await until((given) => location.search === `?${given}` && document.documentElement?.dataset.shown, loads);
  return read();
}

/** What the relative luminance of two colours makes of them: 4.5 is wanted for text (WCAG 2.2, 1.4.3). */
function contrast(...colours) {
  const [light, dark] = colours.map((colour) => {
    const [red, green, blue] = colour.match(/[\d.]+/g).map(Number).map((it) => (it / 255 <= 0.04045 ? it / 255 / 12.92 : ((it / 255 + 0.055) / 1.055) ** 2.4));
    return 0.2126 * red + 0.7152 * green + 0.0722 * blue + 0.05;
  }).sort((one, other) => other - one);
  return light / dark;
}

/** Does something in the page that leads to another result, and reads that. */
async function after(body, given) {
  const before = await shown();
  await page.run(body, given);
  await until((old) => Number(document.documentElement.dataset.shown) > Number(old), before);
  return read();
}

const type = (text) => after((given) => {
  const box = document.getElementById("text");
  box.value = given;
  box.dispatchEvent(new Event("input"));
}, text);

const drop = (given) => after((given) => {
  const files = new DataTransfer();
  files.items.add(new File([typeof given === "string" ? given : new Uint8Array(given)], "dropped.wat"));
  dispatchEvent(new DragEvent("drop", { dataTransfer: files, cancelable: true }));
}, given);

const click = (row) => page.run((index) => document.querySelectorAll("#result table button")[index].click(), row);
const log = (word) => until((given) => {
  const told = document.getElementById("log")?.textContent ?? "";
  return told.includes(given) && told;
}, word);
const picture = async (name) => pictures && page.picture(`${pictures}/${name}.png`);

try {
  await page.send("Page.addScriptToEvaluateOnNewDocument", {
    source: "window.violations = []; addEventListener('securitypolicyviolation', (it) => violations.push(`${it.effectiveDirective} ${it.blockedURI}`));",
  });
  await load();
  // Twice, so that the time in the picture is not that of compiling.
  let seen = await after(() => { document.getElementById("text").dispatchEvent(new Event("input")); });
  test("the first text is shown by section", ["header 8 bytes", "00 61 73 6d 01 00 00 00", "code ", "$fac", 'custom "name"'].every((it) => seen.result.includes(it)), seen);
  test("its bytes are counted", /^\d+ bytes in /.test(seen.state), seen);
  seen = await page.run(() => document.getElementById("version").textContent);
  test("the page tells of proofs", /^Rigyomad \d+\.\d+\.\d+( \((UNPROVED|proved by CI, not on this machine)\)|, built with proofs)$/.test(seen), seen);

  await until(() => document.querySelectorAll("#result table button").length === 2);
  await page.run(() => { document.querySelector("#result table input").value = "20"; });
  await click(0);
  test("an export of i64 runs", (await log("fac(")).includes("fac(20) = 2432902008176640000"));
  await click(1);
  await log("tick() = 1");
  await click(1);
  seen = await log("tick() = 2");
  test("an instance keeps its state, and imports tell of calls", seen.includes("env.log(1)") && seen.includes("env.log(2)"), seen);
  await picture("first");

  seen = await type('(module\n\t(func $f (export "€") (;🎉;) (call $gone)))\n');
  test("an error has its number, words and line", ["error E4", "unknown func: failed to find name `$gone`", "^"].every((it) => seen.result.includes(it)), seen);
  test("its token is marked", seen.mark === "$gone" && seen.state === "error at 2:37", seen);
  seen = await page.run(() => {
    // The same text beside it: where the token is, by the layout of the browser.
    const box = document.getElementById("text"), copy = document.createElement("pre"), style = getComputedStyle(box);
    for (const it of ["font", "padding", "tabSize", "lineHeight"]) copy.style[it] = style[it];
    copy.style.cssText += "position: absolute; top: 0; left: 0; margin: 0; white-space: pre; visibility: hidden";
    const token = document.createElement("b");
    token.textContent = "$gone";
    token.style.font = "inherit";
    copy.append(box.value.split("$gone")[0], token);
    document.getElementById("editor").append(copy);
    const there = token.getBoundingClientRect(), here = document.getElementById("token").getBoundingClientRect();
    copy.remove();
    return [there.left - here.left, there.top - here.top, there.width - here.width].map(Math.abs);
  });
  test("the mark is at the token", Math.max(...seen) < 2, seen);
  await picture("error");
  seen = await type('(module (start $"\\u{202e}\\1b"))');
  test("control characters are shown as escapes", seen.result.includes("`$\\u{202e}\\u{1b}`") && !/[\u202e\u001b]/.test(seen.result), seen);

  for (const [name, text, line, mark] of [
    ["whose type is wrong", '(module\n  (func $f (export "a") (result i32)\n    i64.const 1 i32.const 1\n    i32.add))', 3, "i64.const"],
    ["that is folded", "(module\n  (func)\n  (func (result i32)\n    (i32.add (; ( ;)\n      (i32.const 1)))\n  (func))", 4, "i32.add"],
    ["at the end of a function", '(module\n  (data (i32.const 0) "(func") (memory 1)\n  (func (result i32)))', 3, "func"],
    ["in a block", "(module (func\n  (block (result i32)\n    (nop))\n  drop))", 2, "block"],
    ["among others on a line", "(module (func (result f32) i32.const 1 f32.neg))", 1, "i32.const"],
  ]) {
    seen = await type(text);
    test(`the engine's fault is shown at the instruction ${name}`, seen.mark === mark && seen.result.includes(`at line ${line}.`) && seen.result.includes("does not check types"), seen);
    test(`and its bytes ${name}`, /^\d+ bytes/.test(seen.state) && seen.result.includes("header 8 bytes"), seen);
  }
  await picture("fault");
  seen = await type("(module (memory 70000))");
  test("a fault in no code has no line", seen.result.includes("this browser does not run the module") && seen.mark === null && !seen.result.includes("at line"), seen);

  await type(`(module (type (struct (field i8))) (import "constructor" "keys" (func $a (param i32))) (import "__proto__" "then" (func $b (param i32)))
    (rec (type $s (sub (func (param f64)))) (type (sub $s (func (param f64))))) (import "__proto__" "x" (func))
    (func (export "run") (call $a (i32.const 1)) (call $b (i32.const 2))) (export "keys" (func $a))
    (func (export "sub") (type 2)))`);
  await click(0);
  seen = await log("run() = nothing");
  test("imports may have the names of properties of each object", seen.includes("constructor.keys(1)") && seen.includes("__proto__.then(2)"), seen);
  await page.run(() => { document.querySelectorAll("#result table input")[0].value = "7"; });
  await click(1);
  test("an exported import is called", (await log("\nkeys(7) = ")).includes("constructor.keys(7)"));
  await click(2);
  test("a function with a subtype is called", (await log("sub(")).includes("sub(0) = nothing"));

  await type(`(module (func (export "a") (param $i i32) (param i64 f32 f64 externref funcref) (result i32 i64 f32 f64)
    (local.get 0) (local.get 1) (local.get 2) (local.get 3)))`);
  const fill = (...words) => page.run((given) => [...document.querySelectorAll("#result table input")].map((it, index) => {
    it.value = given[index] ?? "";
    return it.placeholder + (it.disabled ? " disabled" : "");
  }), words);
  seen = await fill("-1", "0x7fff_ffff_ffff_ffff", "0.1", "-inf", "x");
  test("there is a field for each argument", seen.join() === "i i32,i64,f32,f64,externref,ref disabled", seen);
  await click(0);
  seen = await log("-Infinity");
  test("arguments are by type", seen === "a(-1, 9223372036854775807, 0.1, -Infinity, x, null) = -1,9223372036854775807,0.10000000149011612,-Infinity\n", seen);
  await fill("4294967295", "-0x8000000000000000", "nan", "1e3");
  await click(0);
  test("and numbers by their range", (await log("NaN")).endsWith("= -1,-9223372036854775808,NaN,1000\n"));
  for (const [at, word] of [[0, "4294967296"], [0, "1.5"], [1, "18446744073709551616"], [2, "1x"], [0, "-2147483649"]]) {
    const words = [];
    words[at] = word;
    await fill(...words);
    await click(0);
    test(`${word} is refused`, (await log(`a: \`${word}\` is no ${["i32", "i64", "f32"][at]}`)) !== "");
  }
  seen = await type('(module (import "m" "g" (global i32)) (func (export "a")))');
  await until(() => document.querySelector("#result table button"));
  await click(0);
  test("an import that is no function is told", (await log("import")).includes("no global for the import m.g"));
  await type('(module (func (export "a") (loop (br 0))))');
  await until(() => document.querySelector("#result table button"));
  await click(0);
  test("a call that does not end is ended", (await log("a: ended after 5 seconds")) !== "");

  seen = await drop("(module (func $dropped))");
  test("a file is dropped", seen.result.includes("$dropped"), seen);
  seen = await drop([40, 255]);
  test("a file that is not UTF-8 is an error", seen.result.includes("malformed UTF-8 encoding"), seen);
  seen = await after(() => { document.getElementById("names").click(); });
  await type("(module (func $f))");
  seen = await read();
  test("names are left out", !seen.result.includes('custom "name"') && seen.result.includes("$f"), seen);

  await page.send("Browser.setDownloadBehavior", { behavior: "allow", downloadPath: page.folder });
  await page.run(() => document.getElementById("download").click());
  const file = `${page.folder}/dropped.wasm`;
  for (let count = 0; count < 100 && !existsSync(file); count += 1) await pause(100);
  test("the bytes are downloaded", existsSync(file) && readFileSync(file).toString("hex") === "0061736d01000000010401600000030201000a040102000b", readdirSync(page.folder));

  seen = await page.run(() => [...document.querySelectorAll("#examples option")].map((it) => it.textContent));
  test("there are six examples", seen.length === 7, seen);
  for (const title of seen.slice(1)) {
    seen = await after((given) => {
      const menu = document.getElementById("examples");
      menu.value = given;
      menu.dispatchEvent(new Event("change"));
    }, title);
    test(`example: ${title}`, /^\d+ bytes/.test(seen.state) && seen.result.startsWith("run"), seen);
    await click(0);
    test(`it runs: ${title}`, /^\w+\(.*\) = /.test(await log("(")), await log(""));
  }

  // what is kept, and links
  const text = '(module (func $"é %41 #") (;🎉;))\n';
  await type(text);
  seen = await load();
  test("a text is kept over a reload", seen.text === text, seen);
  await page.run(() => document.getElementById("share").click());
  await until(() => document.getElementById("state").textContent.includes("the link is"));
  const hash = await page.run(() => location.hash);
  await type("(module)");
  test("a link is that of the text that was shared", (await page.run(() => location.hash)) === "" && (await load(hash)).text === text, hash);
  seen = await load("#100%");
  test("a hash may have a sign of percent", seen.text === "100%" && seen.state.startsWith("error at 1:1"), seen);
  seen = await after(() => { location.hash = "#(module%20(func))"; });
  test("a link may be opened in the page", seen.text === "(module (func))" && seen.state.startsWith("24 bytes"), seen);
  await page.run(() => { location.hash = ""; });
  await pause(200);
  test("a text stays if the address loses its link", (await read()).text === "(module (func))");
  await type(`(module)${" ".repeat(20_000)}`);
  await page.run(() => document.getElementById("share").click());
  test("a long text has no link", (await read()).state.startsWith("no link: ") && (await page.run(() => location.hash)) === "");

  // keys, colours and numbers of lines
  seen = [];
  await page.run(() => document.activeElement.blur());
  for (let count = 0; count < 7 && seen.at(-1) !== "text"; count += 1) {
    await page.press("Tab", 9);
    seen.push(await page.run(() => document.activeElement.id));
  }
  test("each control is reached by Tab", seen.join() === "open,examples,share,download,names,text", seen);
  seen = await page.run(() => getComputedStyle(document.getElementById("editor"), "::after").borderTopWidth);
  test("the text that has the focus has a ring", seen === "2px", seen);
  await page.send("Page.setInterceptFileChooserDialog", { enabled: true });
  await page.run(() => { document.getElementById("open").focus(); document.getElementById("file").addEventListener("click", () => { window.isOpened = true; }); });
  await page.press(" ", 32);
  await page.run(() => document.getElementById("open").click());
  test("Open a file opens one", await page.run(() => window.isOpened));
  await type("(module\n\n(start $f)\n)");
  for (const value of ["light", "dark"]) {
    await page.send("Emulation.setEmulatedMedia", { features: [{ name: "prefers-color-scheme", value }] });
    seen = await page.run(() => {
      document.body.style.background = "Canvas";
      return [document.querySelector(".error strong"), document.body].map((it, index) => getComputedStyle(it)[index ? "backgroundColor" : "color"]);
    });
    test(`an error can be read on ${value}`, contrast(...seen) >= 4.5, [...seen, contrast(...seen)]);
    if (value === "dark") await picture("dark");
  }
  await page.send("Emulation.setEmulatedMedia", { features: [] });
  const numbers = () => page.run(() => {
    const it = document.getElementById("numbers"), { top } = it.getBoundingClientRect(), lines = it.textContent.split("\n");
    return { lines, distance: document.getElementById("mark").getBoundingClientRect().top - top };
  });
  seen = await numbers();
  test("lines have numbers", seen.lines.join() === "1,2,3,4" && Math.abs(seen.distance - 40) < 1, seen);
  await type(`(module${"\n".repeat(200)}(start $f))`);
  await page.run(() => [...document.querySelectorAll("#result button")].find((it) => it.textContent === "Go to it").click());
  await until(() => document.getElementById("text").scrollTop > 0 && !document.getElementById("numbers").textContent.startsWith("1\n"));
  seen = await numbers();
  test("numbers move with the text", Math.abs(seen.distance - 20 * seen.lines.indexOf("201")) < 1 && seen.lines.length < 50, seen);

  // 2 MB of text: the page must go on while the worker reads it.
  const long = `(module\n${Array.from({ length: 50_000 }, (_, index) => `  (func $f${index} (result i32) (i32.const ${index % 100}))\n`).join("")})\n`;
  await page.run(() => {
    const seen = { most: 0, last: performance.now() };
    window.stall = seen;
    setInterval(() => {
      const now = performance.now();
      seen.most = Math.max(seen.most, now - seen.last);
      seen.last = now;
    }, 5);
  });
  const start = performance.now();
  seen = await drop(long);
  const took = performance.now() - start, stall = await page.run(() => window.stall.most);
  test("2 MB of text have bytes", /^\d+ bytes in /.test(seen.state), seen.state);
  console.log(`${long.length} characters: ${seen.state}, ${took.toFixed(0)} ms from the drop to the end, the page stood still for ${stall.toFixed(0)} ms at most`);
  test("the page stands still for less than a second", stall < 1000, stall);
  seen = await after((given) => {
    const clipboardData = new DataTransfer(), box = document.getElementById("text");
    clipboardData.setData("text/plain", given);
    document.getElementById("close").click();
    box.dispatchEvent(new ClipboardEvent("paste", { clipboardData, cancelable: true }));
  }, long.replace("i32.const 99))\n)", "i32.const $x))\n)"));
  await until(() => document.getElementById("state").textContent.startsWith("error"));
  seen = await read();
  test("an error at the end of 2 MB that are pasted is marked", seen.mark === "$x" && seen.state === "error at 50001:41", seen);
  await page.run(() => [...document.querySelectorAll("#result button")].find((it) => it.textContent === "Go to it").click());
  seen = await until(() => {
    const { top, bottom } = document.getElementById("token").getBoundingClientRect(), whole = document.getElementById("editor").getBoundingClientRect();
    return top > whole.top && bottom < whole.bottom && document.getElementById("lines").textContent;
  });
  test("it is in sight", seen.includes("(i32.const $x)"), seen);
  await picture("long");
  seen = await after(() => document.getElementById("close").click());
  test("a long text is closed", await page.run(() => !document.getElementById("text").hidden && document.getElementById("view").hidden), seen);
  await page.run(() => {
    const script = document.createElement("script");
    window.violationsOfPage = window.violations.splice(0);
    script.textContent = "window.isInline = true";
    document.body.append(script);
    return fetch("/package.json").catch(() => undefined);
  });
  seen = await page.run(() => [window.isInline, window.violations, window.violationsOfPage]);
  test("the policy of the page refuses what it does not need", !seen[0] && seen[1].length === 2 && seen[2].length === 0, seen);
  test("nothing was thrown in the page", page.problems.length === 0, page.problems);
} finally {
  await page.close();
  server.stop();
}
console.log(`${passed} passed, ${failed} failed`);
process.exit(failed ? 1 : 0);
