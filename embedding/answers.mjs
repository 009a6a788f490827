// Runs calls of the program by the module, for a language that cannot run WebAssembly. One process of node runs all
// calls. It reads a JSON text from each line, [ARGUMENTS, INPUT], and prints a line [STATUS, PRINTED, SAID] for it. All
// bytes are in base64. The environment variable MENCIUS_MODULE may name a module other than module/mencius.wasm.
import { createInterface } from 'node:readline';
import { mencius } from '../module/mencius.mjs';

const bytes = text => Buffer.from(text, 'base64');
const text = bytes => Buffer.from(bytes).toString('base64');

for await (const line of createInterface({ input: process.stdin })) {
  const [args, input] = JSON.parse(line);
  const { status, printed, said } = mencius(args.map(bytes), bytes(input));
  process.stdout.write(JSON.stringify([status, text(printed), text(said)]) + '\n');
}
