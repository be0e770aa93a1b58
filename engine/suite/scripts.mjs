// Writes WebAssembly's own tests as .wast files from the scripts in JavaScript that Firefox's sources have of them.
// usage: node scripts.mjs FOLDER TARGET
// Each .wast.js below FOLDER that has assertions is run with functions that record what it does. What no .wast file has: `(unknown)` is a
// value of a type that the engine lacks, and `(float.const ..)` a NaN of either width.
import fs from 'fs';
import path from 'path';
import vm from 'vm';

const quoted = (text) => '"' + [...Buffer.from(text)].map((byte) =>
  byte >= 32 && byte < 127 && byte !== 34 && byte !== 92 ? String.fromCharCode(byte) : '\\' + byte.toString(16).padStart(2, '0')).join('') + '"';

// A float by its bits, as the text format writes it.
function float(type, bits) {
  const [view, all] = [new DataView(new ArrayBuffer(8)), type === 'f32' ? 0x7f800000n : 0x7ff0000000000000n];
  const sign = bits >> (type === 'f32' ? 31n : 63n) ? '-' : '', size = bits & (type === 'f32' ? 0x7fffffffn : 0x7fffffffffffffffn);
  if (size === all) return `${sign}inf`;
  if (size > all) return `${sign}nan:0x${(size - all).toString(16)}`;
  view.setBigUint64(0, type === 'f32' ? size << 32n : size);
  return sign + (type === 'f32' ? view.getFloat32(0) : view.getFloat64(0));
}

function bits(type, number) {
  const view = new DataView(new ArrayBuffer(8));
  if (type === 'f32') { view.setFloat32(0, number); return BigInt(view.getUint32(0)); }
  view.setFloat64(0, number);
  return view.getBigUint64(0);
}

const little = (bytes) => bytes.reduceRight((all, byte) => all << 8n | BigInt(byte), 0n);
const form = (text) => ({ text });
const constant = (type, number) => form(`(${type}.const ${type[0] === 'i' ? number : float(type, bits(type, number))})`);
const reference = (type) => form({ externref: '(ref.null extern)', funcref: '(ref.null func)', anyfunc: '(ref.null func)' }[type] ?? '(unknown)');
const lane = (it) => typeof it === 'string' ? it.replace('_nan', '').replace(/^/, 'nan:') : typeof it === 'object' ? it.text.split(' ')[1].slice(0, -1) : it;
const vector = (shape, lanes) => form(`(v128.const ${shape} ${[...lanes].map(lane).join(' ')})`);

// What an operand or a result is in a .wast file.
function written(it) {
  if (typeof it === 'bigint') return `(i64.const ${it})`;
  if (typeof it === 'number') return `(i32.const ${it})`;
  if (typeof it === 'string') return `(float.const ${lane(it)})`;
  return it === null ? '(ref.null extern)' : it === undefined ? '' : it.text;
}

// Runs a script: the commands that it has.
function recorded(text) {
  const commands = [];
  let modules = 0, inside = false;
  const instance = (source) => { const made = { number: modules++, source, isNamed: false }; commands.push({ made }); return made; };
  const act = (it) => { if (!inside) commands.push({ action: it }); return it; };
  const within = (action) => { inside = true; try { return action(); } finally { inside = false; } };
  // The module of an assertion, which isn't one of the script's.
  const refused = (kind) => (action, message) => {
    const length = commands.length, made = within(action);
    commands.length = length;
    commands.push({ kind, source: made.source ?? made.definition, message });
  };
  const failed = (kind) => (action, message) => {
    const length = commands.length, made = within(action);
    if (made?.source === undefined) return void commands.push({ kind, action: made, message });
    commands.length = length;
    commands.push({ kind, source: made.source, message });
  };
  const shapes = Object.fromEntries([['i8x16', 8], ['i16x8', 16], ['i32x4', 32], ['i64x2', 64]].map(([shape, width]) =>
    [shape, (lanes) => vector(shape, lanes.map((it) => BigInt.asUintN(width, BigInt(it))))]));
  const floats = Object.fromEntries([['f32x4', 'f32'], ['f64x2', 'f64']].map(([shape, type]) =>
    [shape, (lanes) => vector(shape, lanes.map((it) => typeof it === 'number' ? constant(type, it) : it))]));
  const pattern = (shape) => class { constructor(...lanes) { this.text = vector(shape, lanes).text; } };
  vm.runInNewContext(`"use strict";${text}`, {
    ...shapes, ...floats, console,
    bytes: (type, list) => type === 'v128' ? vector('i8x16', list) : form(`(${type}.const ${type[0] === 'i' ? little(list) : float(type, little(list))})`),
    value: (type, it) => type.endsWith('ref') || type === 'anyfunc' ? reference(type) : constant(type, it),
    either: (...all) => form(`(either ${all.map(written).join(' ')})`),
    F32x4Pattern: pattern('f32x4'), F64x2Pattern: pattern('f64x2'),
    RefWithType: class { constructor(type) { this.text = type === 'funcref' ? '(ref.func)' : '(unknown)'; } },
    ExternRefResult: class { constructor(number) { this.text = `(ref.extern ${number})`; } },
    HostRefResult: class { constructor() { this.text = '(unknown)'; } },
    externref: (number) => form(`(ref.extern ${number})`), hostref: () => form('(unknown)'),
    module: (definition) => ({ definition }),
    instantiate: instance, instantiateFromModule: ({ definition }) => instance(definition),
    register: (made, name) => { made.isNamed = true; commands.push({ made, name }); },
    invoke: (made, name, operands) => act({ head: 'invoke', made, name, operands }),
    get: (made, name) => act({ head: 'get', made, name, operands: [] }),
    assert_return: (action, results) => commands.push({ kind: 'return', action: within(action), results: [results].flat() }),
    assert_trap: failed('trap'), assert_exhaustion: failed('exhaustion'), assert_exception: failed('exception'),
    assert_invalid: refused('invalid'), assert_malformed: refused('malformed'), assert_unlinkable: refused('unlinkable'),
    wasmSimdEnabled: () => true, wasmRelaxedSimdEnabled: () => true, partialOobWriteMayWritePartialData: () => false,
  });
  return commands;
}

function script(commands) {
  let current = null;
  for (const { made, name, action } of commands) {
    if (made && name === undefined) current = made;
    else if (action && action.made !== current) action.made.isNamed = true;
  }
  const id = (made) => made.isNamed ? ` $m__${made.number}` : '';
  const module = (source, name = '') => {
    const head = /^\s*\(module\b\s*(\$[^\s()"]+)?/.exec(source);
    return head ? `(module${name} ${source.slice(head[0].length)}` : `(module${name} ${source})`;
  };
  const act = (it) => `(${it.head}${id(it.made)} ${quoted(it.name)} ${it.operands.map(written).join(' ')})`;
  return commands.map(({ kind, made, name, action, results, source, message }) => {
    if (kind === 'return') return `(assert_return ${act(action)} ${results.map(written).join(' ')})`;
    if (kind) return `(assert_${kind} ${source === undefined ? act(action) : module(source)} ${quoted(message ?? '')})`;
    if (action) return act(action);
    return name === undefined ? module(made.source, id(made)) : `(register ${quoted(name)}${id(made)})`;
  });
}

const [folder, target] = process.argv.slice(2);
for (const name of fs.readdirSync(folder, { recursive: true }).filter((it) => it.endsWith('.wast.js')).sort()) {
  const [file, text] = [path.join(target, name.slice(0, -3)), fs.readFileSync(path.join(folder, name), 'utf8')];
  if (!/^assert_\w+\(/m.test(text)) continue;
  fs.mkdirSync(path.dirname(file), { recursive: true });
  fs.writeFileSync(file, script(recorded(text)).join('\n') + '\n');
}
