// What `tsc` has to take, and what it has to refuse, of the types of the package. Nothing of it runs.
import { columns, commands, escaped, init, isProved, memorySize, names, namesWithin, notes, parse, resolve, sections, version, WatError } from "../index.js";
import type { Action, Command, CommandType, Kind, Name, NameWithin, Note, Section, Space, Value } from "../index.js";

await init();
await init(new URL("https://example.org/rigyomad.wasm"));
await init(fetch("rigyomad.wasm"));
await init(new Uint8Array(8));
await init(await WebAssembly.compile(new Uint8Array(8)));

const bytes: Uint8Array = parse("(module)");
await WebAssembly.instantiate(parse(bytes, { names: false }));
const first: Name | undefined = names(new ArrayBuffer(8))[0];
for (const view of [new DataView(new ArrayBuffer(8)), new Uint16Array(4), new ArrayBuffer(8), new SharedArrayBuffer(8)]) parse(view);
const within: NameWithin | undefined = namesWithin("(module)")[0];
const space: Space = first?.space ?? "func";
const index: number | undefined = resolve("(module)", space, "f");
const found: Section[] = sections(bytes);
const note: Note | undefined = notes("(module")[0];
const [command]: Command[] = commands(new Uint8Array(8)), type: CommandType = command.type, action: Action | undefined = command.action;
const values: Value[] = command.expected ?? action?.args ?? [], module: Uint8Array | null | undefined = command.module;
console.log(type, values[0].value, module?.length, note?.column, columns("a"), command.error?.kind, command.commands?.length);
const told: [string, boolean, number] = [escaped(version()), isProved(), memorySize()];

try {
  parse("");
} catch (error) {
  if (error instanceof WatError) {
    const kind: Kind = error.kind, offsets: number[] = [error.number, error.line, error.column, error.start, error.end], shown: string = error.snippet;
    console.log(kind, offsets, shown, error.message, index, found, told, within);
    // @ts-expect-error: fields are not changed
    error.line = 1;
  }
}

// @ts-expect-error: a text is a string or bytes
parse(1);
// @ts-expect-error: a response is awaited and read before
parse(fetch("a.wat"));
// @ts-expect-error: there is no such option
parse("", { name: true });
// @ts-expect-error: there is no such index space
resolve("", "functions", "f");
// @ts-expect-error: errors are made by the package alone
new WatError();
