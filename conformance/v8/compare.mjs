// Compares the proved library with V8. usage: node compare.mjs LIBRARY HEADER [COUNT [SEED]]
//
// LIBRARY is library.c, built; HEADER is include/wasmi_core.h. Each instruction of the header gets COUNT (1000) operands, edges first, and
// COUNT / 5 random runs go over tables, memories, segments and globals. The last line counts; the exit status is 1 if one differs, and
// 2 if nothing is compared.
import { spawnSync } from "node:child_process";
import v8 from "node:v8";
import { numbers, Random, shuffles } from "./numbers.mjs";
import { scripts } from "./scripts.mjs";

const stop = (text) => {
  console.error(`compare.mjs: ${text}`);
  process.exit(2);
};
const [library, header, count = "1000", seed = "1"] = process.argv.slice(2);
if (!header) stop("usage: node compare.mjs LIBRARY HEADER [COUNT [SEED]]");
if (!/^[1-9]\d{0,8}$/.test(count)) stop(`COUNT is a number above 0, and not "${count}"`);
if (!/^\d{1,20}$/.test(seed)) stop(`SEED is a number, and not "${seed}"`);
// Liftoff, the first compiler of V8 11.3, loses the third operand of a relaxed dot product. So every function is compiled by TurboFan.
v8.setFlagsFromString("--no-liftoff");
// V8 11.3 has 277 of the instructions, and without the relaxed ones 267.
const LEAST = 250;
// A module with a relaxed swizzle.
const RELAXED = [0, 97, 115, 109, 1, 0, 0, 0, 1, 7, 1, 96, 2, 123, 123, 1, 123, 3, 2, 1, 0, 10, 11, 1, 9, 0, 32, 0, 32, 1, 253, 128, 2, 11];
const knowsRelaxed = () => WebAssembly.validate(new Uint8Array(RELAXED));
if (!knowsRelaxed()) v8.setFlagsFromString("--experimental-wasm-relaxed-simd");
const hasRelaxed = knowsRelaxed();
const random = new Random(seed);
const found = numbers(header, Number(count), random, hasRelaxed);
if (found.instructions < LEAST) stop(`${header} has ${found.instructions} instructions that V8 knows, and at least ${LEAST} are wanted`);
const runs = [shuffles(Math.min(Number(count), 1000), random), ...scripts(Math.ceil(Number(count) / 5), random)];

/** A script as a request, with the answer to it. */
const trialOf = ({ lines, replies }, index) => {
  const text = `${lines.join("\n")}\n`;
  return [`script ${text.length}\n${text}`, [`0 ${replies.length}`, ...replies].join("\n"), `script ${index}`];
};
const trials = [...found.trials, ...runs.map(trialOf)];
const asked = spawnSync(library, { input: trials.map(([request]) => `${request}\n`).join(""), maxBuffer: 2 ** 31 });
if (asked.error) stop(`${library} doesn't run: ${asked.error.message}`);
if (asked.status !== 0) throw new Error(`${library} ended with ${asked.status ?? asked.signal}: ${asked.stderr}`);
const printed = asked.stdout.toString("latin1").split("\n");

let place = 0;
const differing = new Set();
for (const [request, answer, name] of trials) {
  const wanted = answer.split("\n");
  // A script that ends otherwise has another number of lines.
  const size = request.startsWith("script") ? 1 + Number(printed[place].split(" ")[1]) : 1;
  const got = printed.slice(place, place + size);
  place += size;
  const at = wanted.findIndex((line, index) => line !== got[index]);
  if (at < 0) continue;
  if (differing.size < 20 && !differing.has(name)) {
    console.log(`DIFFERS ${name}: ${request.split("\n")[at]}\n  V8: ${wanted[at]}\n  the library: ${got[at]}`);
  }
  differing.add(name);
}
if (found.byNumbers.length) console.log(`by V8's BigInt, since it has no instruction: ${found.byNumbers.join(" ")}`);
if (found.skipped.length) console.log(`not compared, since V8 has no instruction: ${found.skipped.join(" ")}`);
if (hasRelaxed) console.log("relaxed instructions: on operands that leave no choice");
const replies = runs.reduce((sum, run) => sum + run.replies.length, 0);
console.log(
  `V8 ${process.versions.v8} without Liftoff, seed ${seed}: ${found.instructions} instructions, ${found.trials.length} trials, ` +
    `${runs.length} scripts with ${replies} replies, ${differing.size} differ`,
);
process.exitCode = differing.size > 0 ? 1 : 0;
