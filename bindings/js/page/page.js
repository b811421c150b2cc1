// The page: texts go to a worker, and what it returns is shown.
import { box, edited, MOST_EDITED, put, showMark } from "./editor.js";
import { at, element } from "./elements.js";
import { EXAMPLES } from "./examples.js";
import { endCalls, showFunctions } from "./functions.js";
import { keep, kept, link, linked } from "./keeping.js";
import { result, showError, showNames, showRefusal, showSections } from "./result.js";

const state = at("state");
const worker = new Worker(new URL("worker.js", import.meta.url), { type: "module" });

let text = "", serial = 0, isBusy = false, isWaiting = false, bytes, file = "module";

/** Hands the newest text to the worker, which has one at a time. */
function convert(given) {
  text = given;
  isWaiting = true;
  if (isBusy) return;
  isBusy = true;
  isWaiting = false;
  serial += 1;
  document.documentElement.dataset.shown = "";
  worker.postMessage({ text, hasNames: at("names").checked });
}

/** Puts another text in place of the one that is shown. */
function replace(given) {
  put(given);
  keep(given);
  convert(given);
}

worker.onmessage = ({ data }) => {
  isBusy = false;
  if (isWaiting) {
    convert(text);
    return;
  }
  show(data);
  document.documentElement.dataset.shown = String(serial);
};
worker.onerror = () => { state.textContent = "the encoder was not loaded: this page needs a server (docs/LIBRARIES.md)"; };

function show({ error, refusal, functions, took, version, isProved, ...module }) {
  endCalls();
  bytes = module.bytes;
  at("download").disabled = !bytes;
  result.replaceChildren();
  showMark(error ?? refusal ?? {});
  if (error) {
    state.textContent = error.line ? `error at ${error.line}:${error.column}` : "error";
    showError(error);
    return;
  }
  state.textContent = `${bytes.length} bytes in ${took.toFixed(took < 10 ? 2 : 0)} ms`;
  at("version").textContent = `Rigyomad ${version}${isProved ? ", built with proofs" : ""}`;
  if (refusal) showRefusal(refusal); else showFunctions(functions, bytes, result);
  showNames(module.names, module.count);
  showSections(bytes, module.sections);
}

async function open(opened) {
  if (!opened) return;
  file = opened.name.replace(/\.\w+$/, "");
  const read = await opened.arrayBuffer();
  try {
    replace(new TextDecoder("utf-8", { fatal: true, ignoreBOM: true }).decode(read));
  } catch {
    // What is not UTF-8 is no text to edit: the encoder returns where it is not.
    put("");
    convert(new Uint8Array(read));
  }
}

let timer;
box.addEventListener("input", () => {
  clearTimeout(timer);
  const given = edited();
  timer = setTimeout(() => {
    if (given.length > MOST_EDITED) put(given);
    keep(given);
    convert(given);
  }, given.length > 100_000 ? 300 : 50);
});
box.addEventListener("paste", (event) => {
  const pasted = event.clipboardData.getData("text/plain");
  if (pasted.length + box.textLength <= MOST_EDITED) return;
  event.preventDefault();
  replace(box.value.slice(0, box.selectionStart) + pasted + box.value.slice(box.selectionEnd));
});
at("close").addEventListener("click", () => replace(""));
at("names").addEventListener("change", () => convert(text));
at("open").addEventListener("click", () => at("file").click());
at("file").addEventListener("change", ({ target }) => open(target.files[0]));
at("examples").append(...Object.keys(EXAMPLES).map((title) => element("option", title)));
at("examples").addEventListener("change", ({ target }) => {
  replace(EXAMPLES[target.value]);
  target.value = "";
});
at("share").addEventListener("click", async () => {
  if (typeof text !== "string" || !link(text)) {
    state.textContent = "no link: the text has more than 20,000 characters, or is not Unicode";
    return;
  }
  try {
    await navigator.clipboard.writeText(location.href);
    state.textContent = "the link is copied";
  } catch {
    state.textContent = "the link is in the address bar";
  }
});
at("download").addEventListener("click", () => {
  const anchor = element("a");
  anchor.href = URL.createObjectURL(new Blob([bytes], { type: "application/wasm" }));
  anchor.download = `${file}.wasm`;
  anchor.click();
  setTimeout(() => URL.revokeObjectURL(anchor.href), 1000);
});
addEventListener("dragover", (event) => {
  event.preventDefault();
  at("editor").classList.add("drop");
});
addEventListener("dragleave", () => at("editor").classList.remove("drop"));
addEventListener("drop", (event) => {
  event.preventDefault();
  at("editor").classList.remove("drop");
  open(event.dataTransfer.files[0]);
});
// A link that is opened in the page itself.
addEventListener("hashchange", () => {
  if (linked() && linked() !== text) replace(linked());
});

replace(linked() || kept() || Object.values(EXAMPLES)[0]);
