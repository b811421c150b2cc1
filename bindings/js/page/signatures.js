// The parameters of the functions that a module exports (binary format: types, function section, export section).
import { MALFORMED, namesWithinOf, Reader, sections, unlessMalformed } from "../binary.js";

const TYPE = 1, FUNCTION = 3, EXPORT = 7;

/** The types that have fields of their own; a reference is passed as null. */
const TYPES = { 0x7f: "i32", 0x7e: "i64", 0x7d: "f32", 0x7c: "f64", 0x7b: "v128", 0x6f: "externref" };

/** Reads a value type, or a packed type of a field. */
function readType(reader) {
  const byte = reader.byte();
  if (byte === 0x63 || byte === 0x64) reader.number(); // the heap type
  return TYPES[byte] ?? "ref";
}

function skipField(reader) {
  readType(reader);
  reader.byte(); // whether it is mutable
}

/** Reads a type of a group. Returns the parameters of a function type. */
function readSubType(reader, form = reader.byte()) {
  switch (form) {
    case 0x4f: case 0x50: // a subtype, after its supertypes
      reader.list(() => reader.number());
      return readSubType(reader);
    case 0x5e:
      skipField(reader);
      return [];
    case 0x5f:
      reader.list(() => skipField(reader));
      return [];
    case 0x60: {
      const parameters = reader.list(() => readType(reader));
      reader.list(() => readType(reader));
      return parameters;
    }
    default: throw MALFORMED;
  }
}

function readGroup(reader) {
  const form = reader.byte();
  return form === 0x4e ? reader.list(() => readSubType(reader)) : [readSubType(reader, form)];
}

/** The list in a section, of which there may be none. */
function listOf(bytes, id, read) {
  const section = sections(bytes).find((it) => it.id === id);
  if (!section) return [];
  const reader = new Reader(bytes, section.content, section.end);
  return reader.list(() => read(reader));
}

/** The exported functions with their parameters, which are undefined for an imported function, and for types that this file does not know. */
export function exportedFunctions(bytes, module) {
  const imported = WebAssembly.Module.imports(module).filter(({ kind }) => kind === "function").length;
  const types = unlessMalformed(() => listOf(bytes, TYPE, readGroup).flat()) ?? [];
  const functions = listOf(bytes, FUNCTION, (reader) => reader.number());
  const names = new Map(namesWithinOf(bytes)?.map(({ kind, owner, index, name }) => [`${kind} ${owner} ${index}`, name]));
  const every = listOf(bytes, EXPORT, (reader) => ({ name: reader.name(), kind: reader.byte(), index: reader.number() }));
  return every.filter(({ kind }) => kind === 0).map(({ name, index }) => {
    const parameters = types[functions[index - imported]]?.map((type, at) => ({ type, name: names.get(`local ${index} ${at}`) }));
    return { name, parameters };
  });
}
