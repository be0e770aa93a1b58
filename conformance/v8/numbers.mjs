// Instructions by number and shuffles: what V8 answers, and the requests that ask the library the same. And random numbers.
import fs from "node:fs";
import { BY_NUMBERS, instance, instruction, lanesOf, leb } from "./instructions.mjs";

// ---- random numbers by a seed (splitmix64), and operands that are likely at an edge

const ones = (width) => (1n << BigInt(width)) - 1n;

export class Random {
  constructor(seed) {
    this.state = BigInt(seed);
  }

  next() {
    this.state = (this.state + 0x9e3779b97f4a7c15n) & ones(64);
    let mixed = this.state;
    mixed = ((mixed ^ (mixed >> 30n)) * 0xbf58476d1ce4e5b9n) & ones(64);
    mixed = ((mixed ^ (mixed >> 27n)) * 0x94d049bb133111ebn) & ones(64);
    return mixed ^ (mixed >> 31n);
  }

  below(bound) {
    return Number(this.next() % BigInt(bound));
  }

  pick(items) {
    return items[this.below(items.length)];
  }

  lane(width) {
    const top = 1n << BigInt(width - 1);
    const edges = [0n, 0n, 1n, ones(width), top, top - 1n, top + 1n, top - 2n, ones(width) - 1n, 0x5555555555555555n, 0xaaaaaaaaaaaaaaaan];
    const choice = this.below(16);
    const lane = edges[choice] ?? [BigInt(this.below(20)), 1n << BigInt(this.below(width)), this.next()][Math.min(choice - 11, 2)];
    return lane & ones(width);
  }

  /** A vector of lanes of one of some widths: one lane in all, two in turn, or others. */
  vector(widths) {
    const width = this.pick(widths);
    const [style, first, second] = [this.below(4), this.lane(width), this.lane(width)];
    let vector = 0n;
    for (let at = 0; at < 128; at += width) {
      const lane = style === 0 ? first : style === 1 ? ((at / width) % 2 ? second : first) : this.lane(width);
      vector |= lane << BigInt(at);
    }
    return [vector & ones(64), vector >> 64n];
  }
}

/** The same lane in a whole vector. */
const splat = (width, lane) => {
  let word = 0n;
  for (let at = 0; at < 64; at += width) word |= lane << BigInt(at);
  return [word, word];
};

const edgeLanes = (width) => {
  const top = 1n << BigInt(width - 1);
  return [0n, 1n, ones(width), top, top - 1n, 0x5555555555555555n & ones(width)];
};

/** Each lane of a vector, changed by a function. */
const eachLane = (words, width, change) =>
  words.map((word) => {
    let changed = 0n;
    for (let at = 0; at < 64; at += width) changed |= change((word >> BigInt(at)) & ones(width)) << BigInt(at);
    return changed;
  });

// ---- the instructions

const PAGE = 65536;
const OFFSETS = [0, 1, 7, 65528, 4294967295];
const TRAPS = { "divide by zero": 5, "remainder by zero": 5, "divide result unrepresentable": 6, "memory access out of bounds": 2 };

/** Each instruction of the header: [shape, name, number]. */
export function instructionsOf(header) {
  const rows = [];
  let shape;
  for (const line of fs.readFileSync(header, "utf8").split("\n")) {
    shape = /^#define WASMI_(\w+)_NAMES\(X\)/.exec(line)?.[1].toLowerCase() ?? shape;
    const row = /^ +X\((\d+), (\w+)\)/.exec(line);
    if (row) rows.push([shape, row[2], Number(row[1])]);
  }
  return rows;
}

// Operands come in by the globals 0 to 5, two words each, and results go out by 6 and 7; the parameter is an address.
const GLOBALS = Array.from({ length: 8 }, (_, index) => ({ name: `word${index}`, type: "i64", zero: [0x42, 0] }));
const operand = (type, index) => {
  const [low, high] = [[0x23, 2 * index], [0x23, 2 * index + 1]];
  return { i64: low, i32: [low, 0xa7], v128: [low, 0xfd, 18, high, 0xfd, 30, 1] }[type];
};
const ZERO = [0x42, 0];
const result = (type) =>
  ({
    i64: [0x24, 6, ZERO, 0x24, 7],
    i32: [0xad, 0x24, 6, ZERO, 0x24, 7],
    v128: [0x22, 1, 0xfd, 29, 0, 0x24, 6, 0x20, 1, 0xfd, 29, 1, 0x24, 7],
  })[type] ?? [];

function functionsOf(shape, name, found) {
  const isAccess = /^(load|store)/.test(shape);
  const lanes = shape.endsWith("lane") ? Array.from({ length: lanesOf(name) }, (_, lane) => lane) : [undefined];
  const made = [];
  for (const offset of isAccess ? OFFSETS : [undefined])
    for (const lane of lanes) {
      const given = found.operands.map(operand);
      const operands = found.isLoad ? [0x41, 0, 0x41, 0, given, 0x37, 0, 0] : given;
      const at = isAccess ? [0x20, 0] : [];
      const place = isAccess || found.isLoad ? [0, ...leb(offset ?? 0)] : [];
      const body = [at, operands, found.code, place, lane ?? [], result(found.result)];
      made.push({ name: [name, offset, lane].join(" "), params: ["i32"], locals: ["v128"], body });
    }
  return made;
}

/** What V8's functions do with words and an address. */
class Engine {
  constructor(functions) {
    this.exports = instance({ functions, pages: 1, globals: GLOBALS });
    this.bytes = new Uint8Array(this.exports.memory.buffer);
  }

  fill() {
    for (let i = 0; i < PAGE; i++) this.bytes[i] = i * 37 + (i >> 8) * 11 + 5;
  }

  sum() {
    let total = 0;
    for (const byte of this.bytes) total = (Math.imul(total, 31) + byte) >>> 0;
    return total;
  }

  around(at) {
    const start = at < 8 ? 0 : Math.min(at - 8, PAGE - 32);
    return this.bytes.subarray(start, start + 32).join(" ");
  }

  /** `STATUS LOW HIGH`, as the library's program prints it. */
  answer(name, words, ptr) {
    const { exports } = this;
    words.forEach((word, index) => (exports[`word${index}`].value = BigInt.asIntN(64, word)));
    exports.word6.value = exports.word7.value = 0n;
    try {
      exports[name](ptr | 0);
    } catch (error) {
      const trap = Object.keys(TRAPS).find((text) => error.message.includes(text));
      if (!trap) throw error;
      return `${TRAPS[trap]} 0 0`;
    }
    return `0 ${BigInt.asUintN(64, exports.word6.value)} ${BigInt.asUintN(64, exports.word7.value)}`;
  }
}

const widthOf = (name) => Number([...name.matchAll(/i(8|16|32|64)(?=x|_)/g)].at(-1)?.[1] ?? 64);

/** Relaxed instructions are compared where they leave no choice: the second operand, or the third, is cut to that. */
function withoutChoice(name, [a, b, c], random) {
  const width = widthOf(name);
  if (name.endsWith("relaxed_swizzle")) return [a, eachLane(b, 8, (lane) => (lane < 16n || lane > 127n ? lane : lane & 15n)), c];
  if (name.endsWith("relaxed_q15mulr_s")) return [a, eachLane(b, 16, (lane) => (lane === 32768n ? 32767n : lane)), c];
  if (name.includes("relaxed_dot")) return [a, eachLane(b, 8, (lane) => lane & 127n), c];
  if (name.includes("relaxed_laneselect")) return [a, b, eachLane(c, width, (lane) => (lane & 1n ? (1n << BigInt(width)) - 1n : 0n))];
  return [a, b, c];
}

/** Operands: each edge as the first one beside each edge as the second one, in 36 turns, and then random ones. */
function* operandsOf(name, count, random) {
  const width = widthOf(name);
  const edges = edgeLanes(width);
  const any = () => random.vector([width, width, 8, 16, 32, 64]);
  for (let turn = 0; turn < count; turn++) {
    const [first, second] = [edges[Math.floor(turn / 6)], edges[turn % 6]];
    const words = first === undefined ? [any(), any(), any()] : [splat(width, first), splat(width, second), any()];
    // Amounts, items and operands that are likely small, after the pairs of edges.
    if (first === undefined && turn % 3 === 2) words[1] = [BigInt(random.below(140)), words[1][1]];
    yield withoutChoice(name, words, random).flat();
  }
}

function* addressesOf(name, count, random) {
  const bits = Number(/(?:load_u|load|store)(\d+)/.exec(name)?.[1] ?? 128);
  const size = /\dx\d/.test(name) ? 8 : bits / 8;
  for (const offset of OFFSETS) {
    for (let over = -3; over <= 3; over++) if (PAGE - size - offset + over >= 0) yield [PAGE - size - offset + over, offset];
    for (const ptr of [0, 1, 7, 8, PAGE - 1, PAGE, 2 ** 31, 2 ** 32 - 1, 2 ** 32 - size]) yield [ptr, offset];
  }
  for (;;) yield [random.below(PAGE + 8), random.pick([0, 0, 1, 7])];
}

/** Requests with V8's answers: [request, answer, name]; and which names V8 answers by its instructions, by numbers, or not at all. */
export function numbers(header, count, random, hasRelaxed) {
  const rows = instructionsOf(header).map(([shape, name, number]) => ({ shape, name, number, found: instruction(shape, name) }));
  const known = rows.filter(({ name, found }) => found && (hasRelaxed || !name.includes("relaxed")));
  const engine = new Engine(known.flatMap(({ shape, name, found }) => functionsOf(shape, name, found)));
  const trials = [];
  for (const { shape, name, number, found } of rows.filter((row) => known.includes(row) || row.name in BY_NUMBERS)) {
    const isAccess = /^(load|store)/.test(shape);
    const addresses = addressesOf(name, count, random);
    engine.fill();
    if (isAccess) trials.push(["fill", "filled", name]);
    let turn = 0;
    for (const words of operandsOf(name, count, random)) {
      const lane = shape.endsWith("lane") ? turn % lanesOf(name) : undefined;
      const [ptr, offset] = isAccess ? addresses.next().value : [];
      const place = isAccess ? [ptr, offset, words[0], words[1]] : words;
      const request = [shape, number, ...(lane === undefined ? [] : [lane]), ...place].join(" ");
      let answer = found
        ? engine.answer([name, offset, lane].join(" "), words, ptr ?? 0)
        : `0 ${BY_NUMBERS[name](words.slice(0, 2), words.slice(2, 4)).join(" ")}`;
      if (shape.startsWith("store")) answer += ` ${engine.around(Math.min(ptr + offset, PAGE))}`;
      trials.push([request, answer, name]);
      turn++;
    }
    if (isAccess) trials.push(["sum", String(engine.sum()), name]);
  }
  const names = (rows) => rows.map(({ name }) => name);
  const others = rows.filter((row) => !known.includes(row));
  return {
    trials,
    instructions: known.length,
    byNumbers: names(others.filter(({ name }) => name in BY_NUMBERS)),
    skipped: names(others.filter(({ name }) => !(name in BY_NUMBERS))),
  };
}

/** Shuffles, which have no number: a script of random ones, and what V8 makes of the same vectors. */
export function shuffles(count, random) {
  const [lines, replies] = [[], []];
  const rows = Array.from({ length: count }, () => Array.from({ length: 16 }, () => random.below(32)));
  const body = (lanes) => [operand("v128", 0), operand("v128", 1), 0xfd, 13, lanes, result("v128")];
  const functions = rows.map((lanes, index) => ({ name: `shuffle${index}`, params: ["i32"], locals: ["v128"], body: body(lanes) }));
  const own = instance({ functions, globals: GLOBALS });
  rows.forEach((lanes, index) => {
    const words = [...random.vector([8]), ...random.vector([8, 64])];
    words.forEach((word, place) => (own[`word${place}`].value = BigInt.asIntN(64, word)));
    own[`shuffle${index}`](0);
    const found = [own.word6, own.word7].map((global) => BigInt.asUintN(64, global.value));
    lines.push(`set 0 ${words[0]} ${words[1]}`, `set 1 ${words[2]} ${words[3]}`, `shuffle 2 0 1 ${lanes.join(" ")}`, "show 2");
    replies.push("done", "done", "done", `raw ${found.join(" ")}`);
  });
  return { lines, replies };
}
