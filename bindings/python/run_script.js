// Runs commands of scripts in the engine of node: each is a line of JSON on standard input, as run_script.py writes it. It answers each
// with a line `passed`, `failed` or `skipped`.
const lines = require("fs").readFileSync(0, "utf8").split("\n").filter((line) => line);

// What modules of scripts import.
const spectest = {
  print() {}, print_i32() {}, print_i64() {}, print_f32() {}, print_f64() {}, print_i32_f32() {}, print_f64_f64() {},
  global_i32: 666, global_i64: 666n, global_f32: 666.6, global_f64: 666.6,
  table: new WebAssembly.Table({ initial: 10, maximum: 20, element: "anyfunc" }),
  memory: new WebAssembly.Memory({ initial: 1, maximum: 2 }),
};
const imports = { spectest };
const instances = new Map();
const SKIPPED = new Error("skipped");

// The bits of a float, as a number.
function floatOf(type, bits) {
  const view = new DataView(new ArrayBuffer(8));
  return type === "f32" ? (view.setUint32(0, Number(bits)), view.getFloat32(0)) : (view.setBigUint64(0, BigInt(bits)), view.getFloat64(0));
}

// A value for the engine. Vectors and NaNs pass only in `caller`.
function valueOf({ type, value }) {
  if (type === "i32") return Number(value) | 0;
  if (type === "i64") return BigInt.asIntN(64, BigInt(value));
  if (type === "f32" || type === "f64") {
    const number = /^nan/.test(value) ? NaN : floatOf(type, value);
    if (Number.isNaN(number)) throw SKIPPED;
    return number;
  }
  if (value === "null" || type === "refnull") return null;
  if (type === "externref" && value !== undefined) return `extern ${value}`;
  throw SKIPPED;
}

// Whether a value that passed through JavaScript is what a result has to be.
function isWanted(expected, value) {
  if (expected.type === "either") return expected.values.some((it) => isWanted(it, value));
  if (expected.value === undefined && expected.type !== "refnull") return value !== null;
  if (expected.type === "funcref" && expected.value === "0") return typeof value === "function";
  return Object.is(valueOf(expected), value);
}

// The width of a number or a lane, and the bits that an arithmetic NaN has set, and a canonical one has alone beside its sign.
const WIDTH = { i8: 8, i16: 16, i32: 32, i64: 64, f32: 32, f64: 64 };
const QUIET = { f32: 0x7fc00000n, f64: 0x7ff8000000000000n };

// Whether the lowest of these bits are those of a number or a lane.
function isNumber(type, wanted, bits) {
  if (wanted === "nan:canonical") return BigInt.asUintN(WIDTH[type] - 1, bits) === QUIET[type];
  if (wanted === "nan:arithmetic") return (bits & QUIET[type]) === QUIET[type];
  return BigInt.asUintN(WIDTH[type], bits) === BigInt(wanted);
}

// Whether these bits are those of a result.
function hasBits(expected, bits) {
  if (expected.type === "either") return expected.values.some((it) => hasBits(it, bits));
  if (expected.type !== "v128") return isNumber(expected.type, expected.value, bits);
  const { lane_type: type, value: lanes } = expected;
  return lanes.every((lane, i) => isNumber(type, lane, bits >> BigInt(i * WIDTH[type])));
}

// Whether the results of a call have their bits, which the module `caller` returns as integers of 64 bits: two of a vector.
function haveBits(action, expected) {
  const call = new WebAssembly.Module(Buffer.from(action.caller, "base64"));
  const returned = new WebAssembly.Instance(call, { "": { f: exported(action) } }).exports.f();
  const words = [returned].flat().map((word) => BigInt.asUintN(64, word ?? 0n));
  return expected.every((it) => {
    const isVector = (it.values?.[0] ?? it).type === "v128";
    return hasBits(it, isVector ? words.shift() | (words.shift() << 64n) : words.shift());
  });
}

function exported(action) {
  const instance = instances.get(action.module ?? "");
  if (!instance) throw SKIPPED;
  return instance[action.field];
}

// What an action returns, as a list.
function act(action) {
  const found = exported(action);
  if (action.type === "get") return [found.value];
  const returned = found(...action.args.map(valueOf));
  return returned === undefined ? [] : Array.isArray(returned) ? returned : [returned];
}

// The exports of a module. One that did not encode has none: its command fails.
function instantiate(command) {
  if (command.module === null) throw command.error;
  return new WebAssembly.Instance(new WebAssembly.Module(Buffer.from(command.module, "base64")), imports).exports;
}

// Whether a call throws an error of this kind. Another error is left to `answer`.
function throws(kind, call) {
  try {
    call();
    return false;
  } catch (error) {
    if (error instanceof kind) return true;
    throw error;
  }
}

// Whether an error says that a value does not pass through JavaScript.
const isOfValue = (error) => error instanceof TypeError && /transforming from\/to JS|Can't get the value/.test(error.message);

const isRefused = (command) => command.module === null || !WebAssembly.validate(Buffer.from(command.module, "base64"));
const run = (command) => (command.action ? act(command.action) : instantiate(command));

// Whether a command passes.
const COMMANDS = {
  module(command) {
    if (command.definition && command.module !== null) throw SKIPPED;
    instances.delete("");
    instances.delete(command.name);
    const made = instantiate(command);
    instances.set("", made);
    if (command.name) instances.set(command.name, made);
    return true;
  },
  register(command) {
    const instance = instances.get(command.name ?? "");
    if (!instance) throw SKIPPED;
    imports[command.as] = instance;
    return true;
  },
  action: (command) => (act(command.action), true),
  assert_return(command) {
    if (command.action?.caller) return haveBits(command.action, command.expected);
    const values = command.action ? act(command.action) : (instantiate(command), []);
    return values.length === command.expected.length && command.expected.every((it, i) => isWanted(it, values[i]));
  },
  assert_trap: (command) => throws(WebAssembly.RuntimeError, () => run(command)),
  assert_exhaustion: (command) => throws(RangeError, () => run(command)),
  assert_exception: (command) => throws(WebAssembly.Exception, () => run(command)),
  assert_uninstantiable: (command) => throws(WebAssembly.RuntimeError, () => run(command)),
  assert_unlinkable: (command) => throws(WebAssembly.LinkError, () => run(command)),
  assert_malformed: isRefused,
  assert_invalid: isRefused,
};

function answer(line) {
  const command = JSON.parse(line);
  try {
    if (!COMMANDS[command.type]) return "skipped";
    return COMMANDS[command.type](command) ? "passed" : "failed";
  } catch (error) {
    return error === SKIPPED || isOfValue(error) ? "skipped" : "failed";
  }
}

console.log(lines.map(answer).join("\n"));
