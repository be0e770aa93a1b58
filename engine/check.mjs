// Runs scripts in V8 and replies as `engine --script` does, and to `validate FILE` whether a module is valid. usage: node [FLAG..] check.mjs < SCRIPT
// V8 has no fuel, and it doesn't tell a module that is malformed from one that is invalid: that is `refused`. Memories, tables and globals
// that a module doesn't export are exported in the copy that is run, so that the digest can see them.
import fs from 'node:fs';

const I32 = 0x7f, I64 = 0x7e, F32 = 0x7d, F64 = 0x7c, V128 = 0x7b;
// The code after `global.get` that gives the bits of a global as numbers of 64 bits, for the types that JavaScript doesn't take as they are.
const BITS = { [F32]: [[0xbc, 0xad]], [F64]: [[0xbd]], [V128]: [[0xfd, 0x1d, 0], [0xfd, 0x1d, 1]] };
const SECTIONS_BEFORE = { 1: [], 3: [1, 2], 7: [1, 2, 3, 4, 5, 6], 10: [1, 2, 3, 4, 5, 6, 7, 8, 9, 12] };

class Reader {
  constructor(bytes) { this.bytes = bytes; this.at = 0; }
  byte() { return this.bytes[this.at++]; }
  u64() {
    for (let value = 0n, shift = 0n; ; shift += 7n) {
      const byte = this.byte();
      value |= BigInt(byte & 127) << shift;
      if (byte < 128) return value;
    }
  }
  u32() { return Number(this.u64()); }
  take(count) { const from = this.at; this.at += count; return this.bytes.subarray(from, this.at); }
  name() { return Buffer.from(this.take(this.u32())).toString(); }
  limits() {
    const kind = this.byte();
    this.u64();
    if (kind & 1) this.u64();
  }
  constant() {
    for (;;) {
      const code = this.byte();
      if (code === 0x0b) return;
      if (code === 0xfd) { this.u32(); this.take(16); }
      else if (code === 0x43) this.take(4);
      else if (code === 0x44) this.take(8);
      else if (code < 0x6a || code > 0x7e) this.u64();
    }
  }
}

function leb(value) {
  const bytes = [];
  for (; value > 127; value = Math.floor(value / 128)) bytes.push(value & 127 | 128);
  return [...bytes, value];
}

function sections(bytes) {
  const reader = new Reader(bytes), found = [];
  reader.take(8);
  while (reader.at < bytes.length) { const id = reader.byte(); found.push({ id, content: Buffer.from(reader.take(reader.u32())) }); }
  return found;
}

// What a module has: imports first, as in the spaces of indices.
function shape(found) {
  const it = { types: 0, functions: 0, memories: 0, tables: 0, globals: [] };
  for (const { id, content } of found) {
    const reader = new Reader(content);
    if (![1, 2, 3, 4, 5, 6].includes(id)) continue;
    for (let count = reader.u32(); count > 0; count--) {
      let kind = { 3: 0, 4: 1, 5: 2, 6: 3 }[id];
      if (id === 1) { it.types++; continue; }
      if (id === 2) { reader.name(); reader.name(); kind = reader.byte(); }
      if (kind === 0) { reader.u32(); it.functions++; }
      if (kind === 1) { reader.byte(); reader.limits(); it.tables++; }
      if (kind === 2) { reader.limits(); it.memories++; }
      if (kind === 3) { it.globals.push(reader.byte()); reader.byte(); if (id === 6) reader.constant(); }
    }
  }
  return it;
}

function append(found, id, items) {
  if (!items.length) return;
  let section = found.find((it) => it.id === id);
  if (!section) {
    section = { id, content: Buffer.from([0]) };
    const before = found.findLastIndex((it) => SECTIONS_BEFORE[id].includes(it.id));
    found.splice(before + 1, 0, section);
  }
  const reader = new Reader(section.content), count = reader.u32();
  section.content = Buffer.from([...leb(count + items.length), ...section.content.subarray(reader.at), ...items.flat()]);
}

// The module with all exported, and with functions for each global that is a float or a vector, which give its bits.
function exposed(bytes) {
  const found = sections(bytes), it = shape(found), exports = [], bodies = [];
  const add = (name, kind, index) => exports.push([...leb(name.length), ...Buffer.from(name), kind, ...leb(index)]);
  for (let i = 0; i < it.memories; i++) add(`~m${i}`, 2, i);
  for (let i = 0; i < it.tables; i++) add(`~t${i}`, 1, i);
  it.globals.forEach((type, i) => {
    if (!BITS[type]) { add(`~g${i}`, 3, i); return; }
    BITS[type].forEach((code, part) => {
      add(`~v${i}.${part}`, 0, it.functions + bodies.length);
      const body = [0, 0x23, ...leb(i), ...code, 0x0b];
      bodies.push([...leb(body.length), ...body]);
    });
  });
  if (bodies.length) append(found, 1, [[0x60, 0, 1, I64]]);
  append(found, 3, bodies.map(() => leb(it.types)));
  append(found, 7, exports);
  append(found, 10, bodies);
  const all = found.flatMap(({ id, content }) => [Buffer.from([id, ...leb(content.length)]), content]);
  return { bytes: Buffer.concat([bytes.subarray(0, 8), ...all]), shape: it };
}

// FNV-1a of 64 bits, in two halves of 32.
class Sum {
  constructor() { this.high = 0xcbf29ce4; this.low = 0x84222325; }
  bytes(bytes) {
    let { high, low } = this;
    for (let i = 0; i < bytes.length; i++) {
      low = (low ^ bytes[i]) >>> 0;
      const product = low * 435;
      high = (Math.imul(high, 435) + Math.floor(product / 4294967296) + (low << 8)) >>> 0;
      low = product >>> 0;
    }
    this.high = high; this.low = low;
  }
  // A number as so many bytes, the least first.
  number(value, count) {
    const bytes = Buffer.alloc(16);
    bytes.writeBigUInt64LE(BigInt.asUintN(64, BigInt(value)));
    this.bytes(bytes.subarray(0, count));
  }
  text() { return [this.high, this.low].map((it) => it.toString(16).padStart(8, '0')).join(''); }
}

const TRAPS = [
  [/^unreachable$/, 'wasm `unreachable` instruction executed'],
  [/memory access|data segment/, 'out of bounds memory access'],
  [/signature mismatch/, 'indirect call type mismatch'],
  [/divide by zero|remainder by zero/, 'integer divide by zero'],
  [/unrepresentable/, 'integer overflow'],
  [/table|element segment/, 'undefined element: out of bounds table access'],
  [/call stack size/, 'call stack exhausted'],
];
function trap(error) {
  if (!(error instanceof WebAssembly.RuntimeError || error instanceof RangeError)) return `error: ${error.message}`;
  const known = TRAPS.find(([form]) => form.test(error.message));
  return `trap: ${known ? known[1] : `?${error.message}`}`;
}

const reference = (value) => value === null ? 'null' : typeof value === 'function' ? `func ${value.name}` : 'extern';
const number = (value) => value === null ? 0 : typeof value === 'function' ? Number(value.name) + 1 : typeof value === 'object' ? 0xffffffff : value;
const shown = (value) => typeof value === 'number' || typeof value === 'bigint' ? String(value) : reference(value);

const print = (text) => fs.writeSync(1, `${text}\n`);
let instance = null, of = null;
let registered = {}, named = {};
// The host of an instance, as program/spectest.rs has it. What a call prints comes before its reply.
const host = () => ({
  print: () => print(''),
  print_i32: (value) => print(String(value)),
  print_i64: (value) => print(String(value)),
  print_bytes: (at, len) => {
    const { buffer } = instance.exports['~m0'];
    if ((at >>> 0) + (len >>> 0) > buffer.byteLength) throw new WebAssembly.RuntimeError('memory access out of bounds');
    fs.writeSync(1, Buffer.from(buffer, at >>> 0, len >>> 0));
  },
  memory: new WebAssembly.Memory({ initial: 1, maximum: 2 }),
  table: new WebAssembly.Table({ element: 'anyfunc', initial: 10, maximum: 20 }),
  mix: (a, b) => [BigInt.asIntN(64, (b << 7n | BigInt.asUintN(64, b) >> 57n) ^ BigInt(a)), Math.imul(a, 3)],
  refuse: (value) => { if (value % 8 === 0) throw new WebAssembly.RuntimeError('unreachable'); },
  global_i32: 666,
  global_i64: 666n,
  counter: new WebAssembly.Global({ value: 'i64', mutable: true }, 0n),
});

// Operands by the type that a function takes: V8 takes an i64 as a BigInt only.
function called(f, words) {
  if (words.length !== (of.params.get(f) ?? []).length) throw new TypeError(`takes ${of.params.get(f)?.length} arguments`);
  const numbers = words.map((word) => BigInt(word.replace('-0x', '0x')) * (word.startsWith('-0x') ? -1n : 1n));
  const types = of.params.get(f) ?? [];
  return f(...numbers.map((value, i) => types[i] === I64 ? BigInt.asIntN(64, value) : types[i] === I32 ? Number(BigInt.asIntN(32, value)) : null));
}

// The types of the operands of each exported function.
function operands(bytes, exports) {
  const types = [], functions = [], params = new Map();
  for (const { id, content } of sections(bytes)) {
    const reader = new Reader(content);
    for (let count = [1, 2, 3, 7].includes(id) ? reader.u32() : 0; count > 0; count--) {
      if (id === 1) { reader.byte(); types.push([...reader.take(reader.u32())]); reader.take(reader.u32()); }
      if (id === 3) functions.push(types[reader.u32()]);
      if (id === 2) {
        reader.name(); reader.name();
        const kind = reader.byte();
        if (kind === 0) functions.push(types[reader.u32()]);
        if (kind === 1) { reader.byte(); reader.limits(); }
        if (kind === 2) reader.limits();
        if (kind === 3) reader.take(2);
      }
      if (id === 7) {
        const name = reader.name(), kind = reader.byte(), index = reader.u32();
        if (kind === 0) params.set(exports[name], functions[index]);
      }
    }
  }
  return params;
}

function digest() {
  const words = [], { exports } = instance;
  for (let i = 0; i < of.memories; i++) {
    const sum = new Sum(), bytes = new Uint8Array(exports[`~m${i}`].buffer), pages = bytes.length / 65536;
    // A memory of gigabytes, which a damaged module may have, isn't read.
    if (pages <= 1024) sum.bytes(bytes);
    words.push('memory', pages, sum.text());
  }
  for (let i = 0; i < of.tables; i++) {
    const sum = new Sum(), table = exports[`~t${i}`];
    for (let k = 0; k < table.length; k++) sum.number(number(table.get(k)), 4);
    words.push('table', table.length, sum.text());
  }
  const sum = new Sum();
  of.globals.forEach((type, i) => {
    if (BITS[type]) {
      const parts = BITS[type].map((_, part) => exports[`~v${i}.${part}`]());
      parts.forEach((bits) => sum.number(bits, 16 / parts.length));
    } else {
      const value = number(exports[`~g${i}`].value);
      sum.number(type === I32 ? value >>> 0 : value, 16);
    }
  });
  words.push('globals', of.globals.length, sum.text());
  return `ok: ${words.join(' ')}`;
}

// Whether a module is valid, without an instance of it.
function validated(file) {
  try { new WebAssembly.Module(fs.readFileSync(file)); } catch (error) { return `refused: ${error.message}`; }
  return 'ok:';
}

function load(file) {
  instance = null;
  const bytes = fs.readFileSync(file);
  if (!WebAssembly.validate(bytes)) return 'refused: by V8';
  const copy = exposed(bytes);
  of = copy.shape;
  try { instance = new WebAssembly.Instance(new WebAssembly.Module(copy.bytes), { ...registered, host: host() }); }
  catch (error) { return error instanceof WebAssembly.LinkError ? 'unlinkable: by V8' : trap(error); }
  of.params = operands(bytes, instance.exports);
  return 'ok:';
}

function written(memory, place, ...file) {
  new Uint8Array(instance.exports[memory].buffer).set(fs.readFileSync(file.join(' ')), Number(place));
  return 'ok:';
}

function reply(line) {
  const [command, ...words] = line.split(' ');
  if (command === 'module') return load(words.join(' '));
  if (command === 'validate') return validated(words.join(' '));
  if (command === 'fuel') return 'ok:';
  if (command === 'drop') { registered = {}; named = {}; instance = null; return 'ok:'; }
  if (command === 'use') { [instance, of] = named[words[0]]; return 'ok:'; }
  if (command === 'left') return 'none: V8 has no fuel';
  if (!instance) return 'error: there is no instance';
  if (command === 'register') { registered[words[0]] = instance.exports; return 'ok:'; }
  if (command === 'name') { named[words[0]] = [instance, of]; return 'ok:'; }
  if (command === 'grow') return `ok: ${instance.exports[words[0]].grow(Number(words[1]))}`;
  if (command === 'write') return written(...words);
  if (command === 'digest') return digest();
  const f = instance.exports[words[0]];
  if (typeof f !== 'function') return `error: there is no function ${words[0]}`;
  try {
    const results = called(f, words.slice(1));
    return ['ok:', ...(results === undefined ? [] : [results].flat()).map(shown)].join(' ');
  }
  catch (error) { return trap(error); }
}

const lines = fs.readFileSync(0, 'utf8').split('\n');
if (lines.at(-1) === '') lines.pop();
for (const line of lines) print(reply(line));
