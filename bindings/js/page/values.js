// Arguments of functions: values of WebAssembly, of the words in their fields.

const INTEGER = /^([+-]?)(0x[0-9a-f]+|[0-9]+)$/i;

/** An integer of so many bits, signed or not. */
function integer(word, bits) {
  const [, sign, digits] = INTEGER.exec(word.replaceAll("_", "")) ?? [];
  const value = digits && (sign === "-" ? -BigInt(digits) : BigInt(digits));
  return digits && value >= -(2n ** (bits - 1n)) && value < 2n ** bits ? value : undefined;
}

function float(word) {
  const [, sign, special] = /^([+-]?)(nan|inf)(?:inity)?$/i.exec(word) ?? [];
  const size = special ? (special.toLowerCase() === "nan" ? NaN : Infinity) : Number(word);
  if (special) return sign === "-" ? -size : size;
  return Number.isNaN(size) ? undefined : size;
}

const READERS = {
  i32: (word) => (integer(word, 32n) === undefined ? undefined : Number(integer(word, 32n))),
  i64: (word) => integer(word, 64n),
  f32: float,
  f64: float,
  externref: (word) => word,
};

/** The types that have a field. */
export const hasField = (type) => type in READERS;

/** The value of a word as an argument of a type. No word is 0. A reference that is not of the host is null. */
export function argumentOf(type, word) {
  if (!hasField(type)) return null;
  const value = READERS[type](word.trim() || "0");
  if (value === undefined) throw new Error(`\`${word}\` is no ${type}`);
  return value;
}
