// Runs exports of a module beside the page, which ends this worker if a call does not end.
let instance, lines = [];

onmessage = async ({ data: { bytes, name, values } }) => {
  try {
    instance ??= await start(bytes);
    const result = instance.exports[name](...values);
    lines.push(`${name}(${values.map(String).join(", ")}) = ${result === undefined ? "nothing" : String(result)}`);
  } catch (error) {
    lines.push(`${name}: ${error.message}`);
  }
  postMessage(lines.splice(0));
};

/** An instance whose imported functions say that they are called, and return 0. */
async function start(bytes) {
  // A name of an import may be that of a property which each object has, such as `constructor`.
  const module = await WebAssembly.compile(bytes), imports = Object.create(null);
  for (const { module: from, name, kind } of WebAssembly.Module.imports(module)) {
    if (kind !== "function") throw new Error(`this page has no ${kind} for the import ${from}.${name}`);
    imports[from] ??= Object.create(null);
    // `false` is 0 for each type of numbers.
    imports[from][name] = (...values) => { lines.push(`  ${from}.${name}(${values.map(String).join(", ")})`); return false; };
  }
  return WebAssembly.instantiate(module, imports);
}
