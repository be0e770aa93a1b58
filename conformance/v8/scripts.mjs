// Random runs over a memory, three tables, element segments and globals in V8, and the scripts that ask the library the same.
import { instance, TYPE } from "./instructions.mjs";

// ---- a module that does one thing in each function: to a memory, three tables (the third of external references) and element segments

const FUNCTIONS = 64;
/** The functions in each element segment, by their indices. */
const SEGMENTS = [[], [3], [1, 2, 3, 4, 5], [9, 8, 7, 7, 40, 63, 0, 0, 12, 13]];
const TABLES = ["funcref", "funcref", "externref"];

const [first, second, third] = [0, 1, 2].map((index) => [0x20, index]);

function engine(memory, tables) {
  const functions = [];
  const add = (name, params, results, ...body) => functions.push({ name, params, results, body });
  const three = ["i32", "i32", "i32"];
  for (let index = 0; index < FUNCTIONS; index++) add(`f${index}`, [], []);
  TABLES.forEach((type, table) => {
    add(`get${table}`, ["i32"], [type], first, 0x25, table);
    add(`set${table}`, ["i32", type], [], first, second, 0x26, table);
    add(`grow${table}`, [type, "i32"], ["i32"], first, second, 0xfc, 15, table);
    add(`fill${table}`, ["i32", type, "i32"], [], first, second, third, 0xfc, 17, table);
    for (const from of type === "externref" ? [2] : [0, 1])
      add(`copy${table}${from}`, three, [], first, second, third, 0xfc, 14, table, from);
    for (let segment = 0; segment < SEGMENTS.length && type === "funcref"; segment++)
      add(`init${table}${segment}`, three, [], first, second, third, 0xfc, 12, segment, table);
  });
  SEGMENTS.forEach((_, segment) => add(`empty${segment}`, [], [], 0xfc, 13, segment));
  add("grow", ["i32"], ["i32"], first, 0x40, 0);
  add("load32", ["i32"], ["i32"], first, 0x28, 0, 1);
  add("load8", ["i32"], ["i32"], first, 0x2c, 0, 0);
  add("store64", ["i32", "i64"], [], first, second, 0x37, 0, 0);
  const imports = tables.map((table, index) => [`table${index}`, 1, [TYPE[TABLES[index]], 0, 0], table]);
  return instance({ imports: [["memory", 2, [0, 0], memory], ...imports], functions, segments: SEGMENTS });
}

// ---- the runs

const PAGE = 65536;
const STEPS = 120;
const MUTABLE = ["i32", "i64", "f64", "funcref", "externref"];
const GLOBALS = [...MUTABLE.map((type) => [type, true]), ["f32", false], ["i32", false]];

const unsigned = (value) => BigInt.asUintN(32, BigInt(value));
const isReference = (type) => type.endsWith("ref");

/** A run: its lines, and what V8 replies to them. */
class Run {
  lines = [];
  replies = [];

  constructor(random) {
    this.random = random;
    this.tables = TABLES.map((type, index) => this.newTable(type, index));
    SEGMENTS.forEach((items, index) => this.line(["segment func", ...items.map((item) => item + 1)].join(" "), `segment ${index}`));
    const [initial, maximum] = [random.below(3), random.pick([undefined, 3, 7, PAGE])];
    this.line(`memory ${initial} ${maximum ?? "none"} 16 32`, "memory 0");
    this.memory = new WebAssembly.Memory({ initial, maximum });
    this.globals = GLOBALS.map(([type, mutable], index) => this.newGlobal(type, mutable, index));
    this.engine = engine(this.memory, this.tables);
  }

  newTable(type, index) {
    const [initial, maximum] = [this.random.below(12), this.random.pick([undefined, 12, 15, 40])];
    const kind = type === "externref" ? "extern" : "func";
    this.line(`table ${kind} ${initial} ${maximum ?? "none"} 32 ${kind} 0`, `table ${index}`);
    return new WebAssembly.Table({ element: type === "externref" ? type : "anyfunc", initial, maximum }, null);
  }

  newGlobal(type, mutable, index) {
    this.line(`global ${type} ${mutable ? "var" : "const"} 0 0`, `global ${index}`);
    const zero = isReference(type) ? null : type === "i64" ? 0n : 0;
    return new WebAssembly.Global({ value: type === "funcref" ? "anyfunc" : type, mutable }, zero);
  }

  line(line, reply) {
    this.lines.push(line);
    this.replies.push(reply);
  }

  /** A line with its reply, or with a refusal where V8 traps. */
  attempt(line, refusal, call, reply = () => "done") {
    let printed = refusal;
    try {
      printed = reply(call());
    } catch (error) {
      if (!(error instanceof WebAssembly.RuntimeError)) throw error;
    }
    this.line(line, printed);
  }

  /** A reference by its number in scripts: 0 is null, and a function's number is one more than its index. */
  reference(type, number) {
    if (number === 0) return null;
    return type === "externref" ? number : this.engine[`f${number - 1}`];
  }

  numberOf(type, reference) {
    if (reference === null) return 0;
    return type === "externref" ? reference : Number(reference.name) + 1;
  }

  /** A place in something of a size, at its end, past it, or far away. */
  place(size) {
    const inside = this.random.below(size + 1);
    return this.random.pick([0, size, size + 1, 2 ** 32 - 1, inside, inside]);
  }

  tableStep() {
    const table = this.random.below(TABLES.length);
    const type = TABLES[table];
    const [kind, size] = [type === "externref" ? "extern" : "func", this.tables[table].length];
    const number = this.random.below(FUNCTIONS);
    const item = this.reference(type, number);
    const at = this.place(size);
    const count = this.random.pick([0, 1, size, this.random.below(size + 2)]);
    const call = (name, ...words) => () => this.engine[name](...words);
    const refused = (word) => `error out of bounds table access: \`table.${word}\``;
    switch (this.random.below(6)) {
      case 0:
        return this.attempt(`get ${table} ${at}`, "none", call(`get${table}`, at), (it) => `${kind} ${this.numberOf(type, it)}`);
      case 1:
        return this.attempt(`tset ${table} ${at} ${kind} ${number}`, refused("set"), call(`set${table}`, at, item));
      case 2: {
        // Past the greatest size, and never to a size that only one of the two has memory for.
        const more = this.random.pick([0, 1, 2, ...(size > 0 ? [2 ** 32 - 1, 2 ** 32 - size] : [])]);
        const reply = (old) => (old === -1 ? refused("growth") : `value ${old}`);
        return this.attempt(`tgrow ${table} ${more} ${kind} ${number}`, "", call(`grow${table}`, item, more), reply);
      }
      case 3:
        return this.attempt(`fill ${table} ${at} ${kind} ${number} ${count}`, refused("fill"), call(`fill${table}`, at, item, count));
      case 4: {
        const from = type === "externref" ? table : this.random.below(2);
        const source = this.place(this.tables[from].length);
        const copy = call(`copy${table}${from}`, at, source, count);
        return this.attempt(`copy ${table} ${at} ${from} ${source} ${count}`, refused("copy"), copy);
      }
      default:
        return type === "funcref" ? this.segmentStep(table, at, count, refused("init")) : undefined;
    }
  }

  segmentStep(table, at, count, refusal) {
    const segment = this.random.below(SEGMENTS.length);
    if (this.random.below(12) === 0) return this.attempt(`empty ${segment}`, "", this.engine[`empty${segment}`]);
    const source = this.place(SEGMENTS[segment].length);
    const init = () => this.engine[`init${table}${segment}`](at, source, count);
    return this.attempt(`init ${table} ${segment} ${at} ${source} ${count}`, refusal, init);
  }

  memoryStep() {
    const size = this.memory.buffer.byteLength;
    const nearEnd = Math.max(size - this.random.below(9), 0);
    const at = this.random.pick([0, size, nearEnd, nearEnd, this.random.below(size + 1), 2 ** 32 - 1]);
    const value = this.random.lane(64);
    const refusal = "error out of bounds memory access";
    const raw = (found) => `raw ${unsigned(found)} 0`;
    switch (this.random.below(5)) {
      case 0: {
        const pages = this.random.pick([0, 1, 1, 2, PAGE + 1 - size / PAGE, PAGE + 1, 2 ** 32 - 1]);
        const old = this.engine.grow(pages | 0);
        return this.line(`grow 0 ${pages}`, old === -1 ? "error out of bounds memory growth" : `value ${old}`);
      }
      case 1:
        return this.attempt(`load load_u32 0 ${at} 1`, refusal, () => this.engine.load32(at | 0), raw);
      case 2:
        return this.attempt(`load i32_load8_s 0 ${at} 0`, refusal, () => this.engine.load8(at | 0), raw);
      default: {
        const store = () => this.engine.store64(at | 0, BigInt.asIntN(64, value));
        return this.attempt(`store store64 0 ${at} 0 ${value}`, refusal, store);
      }
    }
  }

  /** The low word of a global's value. Floats are numbers that V8 keeps bit for bit. */
  wordOf(type, value) {
    if (isReference(type)) return this.numberOf(type, value);
    if (type === "f64") return new BigUint64Array(Float64Array.of(value).buffer)[0];
    return type === "i64" ? BigInt.asUintN(64, value) : unsigned(value);
  }

  globalStep() {
    const index = this.random.below(GLOBALS.length);
    const [type, mutable] = GLOBALS[index];
    const global = this.globals[index];
    const number = this.random.below(60);
    const value = isReference(type) ? this.reference(type, number) : type === "i64" ? BigInt.asIntN(64, this.random.lane(64)) : number - 30;
    const line = `gset ${index} ${type} ${this.wordOf(type, type === "f64" ? value / 7 : value)} 0`;
    if (mutable) global.value = type === "f64" ? value / 7 : value;
    this.line(line, mutable ? "done" : "error tried to write to immutable global variable");
    this.line(`gget ${index}`, `raw ${this.wordOf(type, global.value)} 0`);
  }

  /** Every element and the first bytes, at the end. */
  show() {
    this.tables.forEach((table, index) => {
      const kind = TABLES[index] === "externref" ? "extern" : "func";
      for (let at = 0; at < table.length; at++) this.line(`get ${index} ${at}`, `${kind} ${this.numberOf(TABLES[index], table.get(at))}`);
    });
    const bytes = new Uint8Array(this.memory.buffer, 0, Math.min(this.memory.buffer.byteLength, 64));
    this.line(`read 0 0 ${bytes.length}`, ["bytes", ...bytes].join(" "));
  }
}

/** Some runs: their lines and replies. */
export const scripts = (count, random) =>
  Array.from({ length: count }, () => {
    const run = new Run(random);
    const kinds = [run.tableStep, run.tableStep, run.memoryStep, run.globalStep];
    for (let step = 0; step < STEPS; step++) random.pick(kinds).call(run);
    run.show();
    return run;
  });
