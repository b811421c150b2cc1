/** Compiles the module. Await it once, before the first call; a further call changes nothing.
 * `source` is `rigyomad.wasm` beside this file if it is not given. */
export function init(
  source?: URL | string | Response | BufferSource | WebAssembly.Module | Promise<Response | BufferSource | WebAssembly.Module>,
): Promise<void>;

/** A module in the text format. The bytes of a buffer, and those that a view has of one, are UTF-8;
 * offsets and columns count what the text has: UTF-16 units of a string, and bytes otherwise. A call
 * throws a `TypeError` for another value, such as a promise that was not awaited. */
export type Text = string | ArrayBuffer | SharedArrayBuffer | ArrayBufferView;

/** A `Uint8Array` over an `ArrayBuffer`, by the words of each version of TypeScript. */
export type Bytes = ReturnType<Uint8Array["slice"]>;

export interface ParseOptions {
  /** Whether the module has a name section; the default is true. */
  names?: boolean;
}

/** Returns the bytes of the module of a text. Throws a `WatError` if it has none. Bytes that begin
 * with `\0asm` are a binary module already: a copy of them is returned. */
export function parse(text: Text, options?: ParseOptions): Bytes;

export type Space = "func" | "table" | "memory" | "global" | "tag" | "elem" | "data" | "type";

export interface Name {
  space: Space;
  index: number;
  /** Without its `$`, and without escapes. */
  name: string;
  /** Where its id begins in the text. */
  offset: number;
}

/** Returns the names of all items of a text, by index space and index. Throws a `WatError`. */
export function names(text: Text): Name[];

/** Returns the index of what a name denotes, as `resolve(text, "func", "f")` for `$f`; undefined
 * if nothing has the name. It reads the whole text: for several names, `names` reads it once. */
export function resolve(text: Text, space: Space, name: string): number | undefined;

export interface NameWithin {
  kind: "local" | "label" | "field";
  /** The index of the function, or of the type of a field. */
  owner: number;
  /** The index within the owner: that of a local or a field, or of a block in the order of the text. */
  index: number;
  /** Without its `$`. */
  name: string;
}

/** Returns the names of locals, labels and fields that the name section of the module of a text has:
 * by kind, then by owner, then by index. If the text has a custom section `name` of its own, they are
 * those in it, and none if it is not well formed. Throws a `WatError`. */
export function namesWithin(text: Text): NameWithin[];

export interface Section {
  id: number;
  /** That of a custom section. */
  name?: string;
  start: number;
  /** Where its content begins, behind its size. */
  content: number;
  end: number;
}

/** Returns the sections of a binary module, up to the first bytes that are none. */
export function sections(bytes: Uint8Array): Section[];

/** A second place that an error is about, or a suggestion. */
export interface Note {
  message: string;
  /** Where it is in the text. */
  start: number;
  end: number;
  /** From 1. */
  line: number;
  /** From 1. */
  column: number;
}

/** Returns the notes of the error of a text, as `first defined here` and `did you mean `$f`?`: at most
 * two, and none if the text has no error. It reads the text again for each. */
export function notes(text: Text): Note[];

/** Returns how many columns a terminal shows of a text in one line, such as 4 of `日本`. */
export function columns(text: string): number;

/** A value, as `wast2json` writes it: the bits of a number as a decimal number without a sign, or `nan:canonical` or
 * `nan:arithmetic`. A reference to a function by its index or its id has that. An `either` has its alternatives. */
export interface Value {
  type: string;
  value?: string | string[] | { index: number } | { id: string };
  lane_type?: string;
  values?: Value[];
}

export interface Action {
  type: "invoke" | "get";
  line: number;
  column: number;
  /** The id of the instance, with its `$`. */
  module?: string;
  field: string;
  /** Those of a call. */
  args?: Value[];
}

export type CommandType =
  | "module" | "instance" | "register" | "action" | "assert_return" | "assert_trap" | "assert_exhaustion" | "assert_exception"
  | "assert_suspension" | "assert_malformed" | "assert_malformed_custom" | "assert_invalid" | "assert_invalid_custom" | "assert_unlinkable"
  | "assert_uninstantiable" | "thread" | "wait";

/** A command of a script, as `wast2json` writes it, with the bytes of a module in place of `filename`. */
export interface Command {
  type: CommandType;
  line: number;
  column: number;
  /** An id, with its `$`. */
  name?: string;
  /** The text of a module in the script. */
  source?: string;
  /** The text of a quoted module. */
  quoted?: Bytes;
  /** The bytes of a module; null if it has none. */
  module?: Bytes | null;
  /** Why a module has no bytes, with its position in the script. */
  error?: WatError;
  module_type?: "text" | "binary";
  definition?: string;
  instance?: string;
  action?: Action;
  /** The results of `assert_return`. */
  expected?: Value[];
  /** What an assertion is told to fail with. */
  text?: string;
  /** The name that an instance is registered with. */
  as?: string;
  thread?: string;
  shared_module?: string;
  /** Those of a thread. */
  commands?: Command[];
}

/** Returns the commands of a script of tests (`.wast`), with the bytes of their modules. Throws a `WatError` if the text is none; a
 * module that has an error is no error of the script. */
export function commands(text: Text): Command[];

/** Returns the version of the module: `0.1.0`, or for example `0.1.0 (UNPROVED)` if it was built without proofs. */
export function version(): string;

/** Returns whether the module was built with proofs. */
export function isProved(): boolean;

/** Returns how many bytes the memory of the module has now. */
export function memorySize(): number;

/** Returns a text in one line: with what could send a command to a terminal, begin a line or change the order of a line as escapes, such
 * as `\n` or `\u{1b}`. Names and messages may have such characters. */
export function escaped(text: string): string;

export type Kind =
  | "Malformed" | "ImportAfter" | "Duplicate" | "DuplicateField" | "Unknown" | "NotFunc" | "OutOfBounds" | "NoMatch" | "Labels"
  | "NoNamedFields" | "TooLarge" | "Uncovered" | "Memory" | "Component";

/** Why a text has no bytes. `message` says it without a position, and a name in it is as in the text. `String(error)` has the position before it, and
 * escapes as `escaped` has them, and so has `stack`. */
export class WatError extends Error {
  private constructor();
  /** 1 to 13 for E1 to E13 (docs/ERRORS.md); 0 if the text is not a module. */
  readonly number: number;
  readonly kind: Kind;
  /** From 1; 0 if the error has no position, as E10 and E12. */
  readonly line: number;
  /** From 1; 0 if the error has no position. */
  readonly column: number;
  /** Where the error is in the text. */
  readonly start: number;
  /** Where the token at `start` ends. */
  readonly end: number;
  /** The position, the line and a caret below it, as the command `wat` prints them; empty if the error has no position. */
  readonly snippet: string;
}
