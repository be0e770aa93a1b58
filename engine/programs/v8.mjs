// Runs a module in V8. usage: node v8.mjs FILE ARGUMENT: the result of `run`, and the milliseconds of processor time that it took.
// node v8.mjs FILE -- ARGS..: a program of WASI preview 1, which ends this process with its status.
import fs from 'node:fs';
import path from 'node:path';
import { WASI } from 'node:wasi';

const [file, argument, ...args] = process.argv.slice(2);
const module = new WebAssembly.Module(fs.readFileSync(file));
if (argument === '--') {
  const wasi = new WASI({ version: 'preview1', args: [path.basename(file), ...args], env: {}, returnOnExit: true });
  process.exitCode = wasi.start(new WebAssembly.Instance(module, wasi.getImportObject()));
} else {
  // What a library that doesn't print imports of WASI isn't called.
  const imports = {};
  for (const { module: from, name } of WebAssembly.Module.imports(module)) (imports[from] ??= {})[name] = () => 52;
  const { run } = new WebAssembly.Instance(module, imports).exports;
  const begun = process.cpuUsage().user;
  const result = run(Number(argument));
  console.log(`${result} ${(process.cpuUsage().user - begun) / 1000}`);
}
