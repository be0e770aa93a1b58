// The instructions of WebAssembly by the library's names: their codes, and the types of their operands and results; and modules of them.
import fs from "node:fs";

// ---- modules

export const leb = (number) => {
  const bytes = [];
  for (let rest = BigInt(number); ; ) {
    const byte = Number(rest & 127n);
    rest >>= 7n;
    bytes.push(rest ? byte | 128 : byte);
    if (!rest) return bytes;
  }
};

const text = (word) => [...leb(word.length), ...Buffer.from(word)];
const vector = (items) => [...leb(items.length), ...items.flat(2)];
const section = (id, items) => {
  const body = vector(items);
  return items.length ? [id, ...leb(body.length), ...body] : [];
};

export const TYPE = { i32: 0x7f, i64: 0x7e, f32: 0x7d, f64: 0x7c, v128: 0x7b, funcref: 0x70, externref: 0x6f };
const types = (names) => vector(names.map((name) => [TYPE[name]]));

/** An instance. `imports` is a list of [name, kind byte, type bytes, value]; a function has params, results, locals and a body; an element
 *  segment is a list of indices of functions. */
export function instance({ imports = [], functions, pages, globals = [], segments = [] }) {
  const declared = functions.map(({ params = [], results = [] }) => [0x60, ...types(params), ...types(results)]);
  const exported = functions.map(({ name }, index) => [...text(name), 0, ...leb(index)]);
  const named = globals.map(({ name }, index) => [...text(name), 3, ...leb(index)]);
  const bodies = functions.map(({ locals = [], body }) => {
    const bytes = [...vector(locals.map((name) => [1, TYPE[name]])), ...body.flat(Infinity), 0x0b];
    return [...leb(bytes.length), ...bytes];
  });
  const bytes = [
    [0, 0x61, 0x73, 0x6d, 1, 0, 0, 0],
    section(1, declared),
    section(2, imports.map(([name, kind, type]) => [...text("own"), ...text(name), kind, ...type])),
    section(3, functions.map((_, index) => leb(index))),
    section(5, pages ? [[0, ...leb(pages)]] : []),
    section(6, globals.map(({ type, zero }) => [TYPE[type], 1, ...zero, 0x0b])),
    section(7, [...(pages ? [[...text("memory"), 2, 0]] : []), ...named, ...exported]),
    section(9, segments.map((items) => [1, 0, ...vector(items.map((index) => leb(index)))])),
    section(10, bodies),
  ].flat(2);
  const module = new WebAssembly.Module(new Uint8Array(bytes));
  const values = Object.fromEntries(imports.map(([name, , , value]) => [name, value]));
  return new WebAssembly.Instance(module, { own: values }).exports;
}

// ---- instructions

const BITWISE = { and: "bitand", or: "bitor", xor: "bitxor" };
const PLAIN = { "i32.load": "load_u32", "i64.load": "load_u64", "i32.store": "store32", "i64.store": "store64" };

/** The codes of instructions.txt, by the library's names. */
const codes = new Map();
for (const line of fs.readFileSync(new URL("../instructions.txt", import.meta.url), "utf8").split("\n")) {
  const [kind, first, ...names] = line.split(" ");
  if (kind.startsWith("#")) continue;
  names.forEach((name, index) => {
    const [type, operation] = name.split(".");
    const own = PLAIN[name] ?? `${type}_${/^i(32|64)$/.test(type) ? (BITWISE[operation] ?? operation) : operation}`;
    const code = parseInt(first.length > 2 ? first.slice(2) : first, 16) + index;
    if (name !== "-") codes.set(own, first.length > 2 ? [parseInt(first.slice(0, 2), 16), ...leb(code)] : [code]);
  });
}

// What is no instruction of WebAssembly but does what a load does with the same bytes.
const AS_LOADS = { v128_low32_zero: "v128_load32_zero", v128_low64_zero: "v128_load64_zero" };
for (const kind of ["8x8_s", "8x8_u", "16x4_s", "16x4_u", "32x2_s", "32x2_u"]) AS_LOADS[`v128_widen${kind}`] = `v128_load${kind}`;

const signed = (value) => BigInt.asIntN(64, value);
const wide = (value) => [BigInt.asUintN(64, value), BigInt.asUintN(64, value >> 64n)];
/** What V8 has no instruction for yet, of two operands of two words each: its BigInt answers. */
export const BY_NUMBERS = {
  i64_add128: ([a, b], [c, d]) => wide(a + (b << 64n) + c + (d << 64n)),
  i64_sub128: ([a, b], [c, d]) => wide(a + (b << 64n) - c - (d << 64n)),
  i64_mul_wide_s: ([a], [b]) => wide(signed(a) * signed(b)),
  i64_mul_wide_u: ([a], [b]) => wide(a * b),
};

const COMPARISON = /_(eqz|eq|ne|lt_.|gt_.|le_.|ge_.|all_true|any_true|bitmask)$/;

/** How an instruction is encoded: its code, the types of its operands and of its result; undefined where V8 has none. */
export function instruction(shape, name) {
  if (name in AS_LOADS) return { code: codes.get(AS_LOADS[name]), operands: ["i64"], result: "v128", isLoad: true };
  const code = codes.get(name);
  if (!code) return undefined;
  const isScalar = /^(i32|i64)_|^load_|^store\d/.test(name);
  const own = isScalar ? (/^i32|^load_u32$|^store32$/.test(name) ? "i32" : "i64") : "v128";
  const item = name.startsWith("i64x2") ? "i64" : "i32";
  const result = !isScalar && (shape === "extract_lane" || COMPARISON.test(name)) ? item : own;
  if (name === "i32_wrap_i64") return { code, operands: ["i64"], result: "i32" };
  if (name.startsWith("i64_extend_i32")) return { code, operands: ["i32"], result: "i64" };
  if (COMPARISON.test(name) && isScalar) return { code, operands: shape === "unary" ? [own] : [own, own], result: "i32" };
  if (!isScalar && /_(all_true|any_true|bitmask)$/.test(name)) return { code, operands: ["v128"], result: "i32" };
  if (COMPARISON.test(name)) return { code, operands: ["v128", "v128"], result: "v128" };
  if (name.endsWith("_splat") && shape === "unary") return { code, operands: [item], result: "v128" };
  if (/_(shl|shr_s|shr_u)$/.test(name) && !isScalar) return { code, operands: ["v128", "i32"], result: "v128" };
  const counts = { unary: 1, binary: 2, ternary: 3, extract_lane: 1, load: 0, store: 1, load_lane: 1, store_lane: 1 };
  if (shape === "replace_lane") return { code, operands: ["v128", item], result: "v128" };
  return { code, operands: Array(counts[shape]).fill(own), result: shape.startsWith("store") ? undefined : result };
}

/** How many lanes there are for an instruction on one lane. */
export const lanesOf = (name) => 128 / Number(/^v128_(?:load|store)(\d+)_lane/.exec(name)?.[1] ?? /^i(\d+)x/.exec(name)[1]);
