// What is in a module in the binary format: its sections, and the names in its name section (binary format: modules, name section).

const decoder = new TextDecoder("utf-8", { ignoreBOM: true });

/** How many bytes the magic number and the version have. */
const HEADER = 8;

/** What has a name within a function or a type, by the part of the name section that has it. */
const WITHIN = { 2: "local", 3: "label", 10: "field" };

/** What a reader throws if bytes are not what is read. */
export const MALFORMED = new Error("malformed bytes");

/** Bytes that are read one after another. */
export class Reader {
  constructor(bytes, at = 0, end = bytes.length) {
    Object.assign(this, { bytes, at, end });
  }

  get isAtEnd() { return this.at >= this.end; }

  byte() {
    if (this.isAtEnd) throw MALFORMED;
    return this.bytes[this.at++];
  }

  /** A number of 32 bits in LEB128, which has at most five bytes. */
  number() {
    let value = 0;
    for (let scale = 1; scale < 2 ** 35; scale *= 128) {
      const byte = this.byte();
      value += (byte & 127) * scale;
      if (byte < 128) return value;
    }
    throw MALFORMED;
  }

  /** The bytes after their size. */
  part() {
    const size = this.number(), start = this.at;
    if (size > this.end - start) throw MALFORMED;
    this.at += size;
    return new Reader(this.bytes, start, this.at);
  }

  name() {
    const { bytes, at, end } = this.part();
    return decoder.decode(bytes.subarray(at, end));
  }

  /** What a function reads as often as the number here says. */
  list(read) {
    const found = [];
    for (let left = this.number(); left > 0; left -= 1) found.push(read());
    return found;
  }
}

/** What `read` returns, or undefined if the bytes are not what it reads. */
export function unlessMalformed(read) {
  try {
    return read();
  } catch (error) {
    if (error !== MALFORMED) throw error;
    return undefined;
  }
}

/** The sections of a module, up to the first bytes that are none: `bytes.subarray(start, end)` is one, and its content begins at `content`. */
export function sections(bytes) {
  const reader = new Reader(bytes, HEADER), found = [];
  for (;;) {
    const start = reader.at, contents = unlessMalformed(() => { reader.byte(); return reader.part(); });
    if (!contents) return found;
    const section = { id: bytes[start], start, content: contents.at, end: contents.end };
    if (section.id === 0) section.name = unlessMalformed(() => contents.name());
    found.push(section);
  }
}

/** A module without its sections of names. Bytes that are no sections, which `(module binary ..)` may have, are kept. */
export function withoutNames(bytes) {
  let end = HEADER, rest = HEADER;
  const keep = (start, stop) => {
    bytes.copyWithin(end, start, stop);
    end += stop - start;
  };
  for (const section of sections(bytes)) {
    if (section.name !== "name") keep(section.start, section.end);
    rest = section.end;
  }
  keep(rest, bytes.length);
  return bytes.slice(0, end);
}

/** Appends the names of an owner in a part of the name section. */
function readOwner(kind, part, found) {
  const owner = part.number();
  part.list(() => found.push({ kind, owner, index: part.number(), name: part.name() }));
}

/** The names of locals, labels and fields in the name section of a module, if it is well formed. */
export function namesWithinOf(bytes) {
  const section = sections(bytes).find(({ name }) => name === "name"), found = [];
  if (!section) return found;
  return unlessMalformed(() => {
    const parts = new Reader(bytes, section.content, section.end);
    parts.name();
    while (!parts.isAtEnd) {
      const kind = WITHIN[parts.byte()], part = parts.part();
      if (kind) part.list(() => readOwner(kind, part, found));
    }
    return found;
  });
}
