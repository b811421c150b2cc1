// Reads the records of a script, as crates/wast_script_records writes them. index.d.ts describes the objects that are made of them.

// The types of commands, by their numbers.
const TYPES = [
  "module", "module", "instance", "register", "action", "assert_return", "assert_trap", "assert_exhaustion", "assert_exception",
  "assert_suspension", "assert_malformed", "assert_malformed_custom", "assert_invalid", "assert_invalid_custom", "assert_unlinkable",
  "thread", "end", "wait",
];
const MODULE = 0, DEFINITION = 1, INSTANCE = 2, REGISTER = 3, RETURN = 5, TRAP = 6, THREAD = 15, END = 16, WAIT = 17;

// The keys of both ids of a command.
const IDS = { [INSTANCE]: ["instance", "definition"], [REGISTER]: [undefined, "name"], [THREAD]: ["name", "shared_module"], [WAIT]: ["thread"] };

// The types of values, by their numbers.
const VALUES = ["i32", "i64", "f32", "f64", "v128", "ref.null", "externref", "anyref", "funcref", "ref", "either"];
const V128 = 4, NULL = 5, FUNC = 8, REF = 9, EITHER = 10;

// The lanes of shapes, and NaNs, by their numbers.
const LANES = ["i8", "i16", "i32", "i64", "f32", "f64"], NUMBERS = ["", "nan:canonical", "nan:arithmetic"];

// The types of references, by the numbers of their heap types.
const REFERENCES = [
  "funcref", "externref", "exnref", "nullexnref", "anyref", "eqref", "structref", "arrayref", "nullfuncref", "nullexternref", "nullref",
  "i31ref", "contref", "nullcontref",
];

/** What is said of a reference. */
const ABSTRACT = 1, SHARED = 2, NUMBER = 3, ID = 4;

/** What is written for the start of a string, or the number of a record, that is absent. */
const NONE = 2 ** 64;

// The words of each record, and which word of the header has the offset of its table. That of all strings has the last offset.
const COMMANDS = [14, 1], MODULES = [20, 3], ACTIONS = [10, 5], ITEMS = [4, 7], LANE = [2, 9], STRINGS = 11;

/** The number of the layout that is read here. */
const LAYOUT = 2;

const decoder = new TextDecoder("utf-8", { ignoreBOM: true });

/** The records of a script. `source` has the parts of its text, and `errorOf` makes an error. */
class Records {
  constructor(bytes, source, errorOf) {
    Object.assign(this, { bytes, source, errorOf, view: new DataView(bytes.buffer, bytes.byteOffset, bytes.byteLength) });
    if (this.word(0) !== LAYOUT) throw new Error("rigyomad: the module writes another layout of records");
  }

  /** The word after so many bytes. Those that a number of JavaScript cannot have are bits of values, and NONE. */
  word(at) {
    return Number(this.view.getBigUint64(at, true));
  }

  /** Where a record begins. */
  placeOf([words, table], index) {
    return this.word(8 * table) + 8 * words * index;
  }

  /** The words of a record. */
  record(table, index) {
    const at = this.placeOf(table, index);
    return Array.from({ length: table[0] }, (_, number) => this.word(at + 8 * number));
  }

  /** The bits of a word of a record, which may have 64. */
  bits(table, index, number) {
    return String(this.view.getBigUint64(this.placeOf(table, index) + 8 * number, true));
  }

  part(start, size) {
    const at = this.word(8 * STRINGS) + start;
    return this.bytes.subarray(at, at + size);
  }

  string(start, size) {
    return decoder.decode(this.part(start, size));
  }

  id(start, size) {
    return start === NONE ? undefined : `$${this.string(start, size)}`;
  }

  value(index) {
    const [type, form, first, second] = this.record(ITEMS, index), bits = this.bits(ITEMS, index, 2);
    if (type < V128) return { type: VALUES[type], value: NUMBERS[form] || bits };
    if (type === V128) {
      const lanes = Array.from({ length: second }, (_, lane) => NUMBERS[this.record(LANE, first + lane)[0]] || this.bits(LANE, first + lane, 1));
      return { type: "v128", lane_type: LANES[form], value: lanes };
    }
    if (type === NULL) return form ? { type: form === ABSTRACT || form === SHARED ? REFERENCES[first] : "ref", value: "null" } : { type: "refnull" };
    if (type === REF) return { type: REFERENCES[first] };
    if (type === FUNC) return { type: "funcref", value: form === NUMBER ? { index: first } : form === ID ? { id: this.id(first, second) } : "0" };
    return form === NUMBER ? { type: VALUES[type], value: bits } : { type: VALUES[type] };
  }

  /** The values of a part. The alternatives of `either` are the values after it. */
  values(first, count) {
    const found = [];
    for (let index = first; index < first + count; index += 1) {
      const [type, , alternatives] = this.record(ITEMS, index);
      if (type === EITHER) {
        found.push({ type: "either", values: Array.from({ length: alternatives }, (_, at) => this.value(index + 1 + at)) });
        index += alternatives;
      } else found.push(this.value(index));
    }
    return found;
  }

  action(index) {
    const [kind, offset, line, column, module, size, name, length, first, count] = this.record(ACTIONS, index);
    const action = { type: kind ? "get" : "invoke", line, column: this.source.column(offset, column) };
    if (module !== NONE) action.module = this.id(module, size);
    action.field = this.string(name, length);
    if (!kind) action.args = this.values(first, count);
    return action;
  }

  module(index) {
    const [form, , , , name, size, start, length, quoted, quotedSize, status, ...rest] = this.record(MODULES, index);
    const [first, count, number, offset, line, , end, message, messageSize] = rest;
    const module = { source: this.source.text(start, start + length) };
    if (name !== NONE) module.name = this.id(name, size);
    if (form === 2) module.quoted = this.part(quoted, quotedSize).slice();
    module.module = first === NONE ? null : this.part(first, count).slice();
    if (status) module.error = this.errorOf({ number, offset, line, end, message: this.string(message, messageSize) });
    return module;
  }

  /** The number of a command's type, and the command. */
  command(index) {
    const [type, offset, line, column, own, ownSize, of, ofSize, text, textSize, module, action, first, count] = this.record(COMMANDS, index);
    const found = { type: TYPES[type], line, column: this.source.column(offset, column) };
    if (module !== NONE) {
      Object.assign(found, this.module(module));
      if (type !== MODULE && type !== DEFINITION) found.module_type = "quoted" in found ? "text" : "binary";
    }
    if (action !== NONE) found.action = this.action(action);
    if (type === DEFINITION) found.definition = "true";
    if (type === TRAP && module !== NONE) found.type = "assert_uninstantiable";
    if (type === RETURN) found.expected = this.values(first, count);
    if (text !== NONE) found[type === REGISTER ? "as" : "text"] = this.string(text, textSize);
    const ids = [this.id(own, ownSize), this.id(of, ofSize)];
    (IDS[type] ?? []).forEach((key, at) => {
      if (key && ids[at] !== undefined) found[key] = ids[at];
    });
    return [type, found];
  }
}

/** The commands of the records of a script. Those of a thread are its `commands`. */
export function commandsOf(bytes, source, errorOf) {
  const records = new Records(bytes, source, errorOf), lists = [[]];
  for (let index = 0; index < records.word(16); index += 1) {
    const [type, found] = records.command(index);
    if (type === END) {
      lists.pop();
      continue;
    }
    lists.at(-1).push(found);
    if (type === THREAD) lists.push(found.commands = []);
  }
  return lists[0];
}
