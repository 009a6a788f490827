#!/usr/bin/env node
// Runs the program `mencius` in node. The proved code is in the WebAssembly module next to this file.
//
//     node mencius.mjs replay|trace|draw|check|judge|run [OPTIONS] < INPUT
//
// This is the command line of mencius. A run has no threads, so its workers take their turns one after the other.
import { readFileSync, readSync, realpathSync, writeSync } from 'node:fs';
import { fileURLToPath } from 'node:url';
import { inspect, types } from 'node:util';

const MOST = 16_777_217; // bytes that are read of a scenario: one more than the longest scenario has
const MOST_OF_A_LOG = 2 ** 31; // bytes; a log of this length gets NoMemory, and its first part gets no verdict
const JUDGE = 16; // bytes of a judge, which are zero at first
const bytes = readFileSync(process.env.MENCIUS_MODULE || fileURLToPath(new URL('mencius.wasm', import.meta.url)));
let code; // the compiled module
let exports; // the exports of the instance that makes calls

// Starts an instance of the module, and returns its exports.
function start() {
  code ??= new WebAssembly.Module(bytes);
  return new WebAssembly.Instance(code, {}).exports;
}

const wide = BigInt; // sizes and addresses have 64 bits, even though the memory was lowered to 32
const sleep = () => Atomics.wait(new Int32Array(new SharedArrayBuffer(4)), 0, 0, 5);
const noMemory = () => { throw new RangeError('the module has no memory'); };
const bytesAt = (x, at, length) => new Uint8Array(x.memory.buffer, Number(at), length);

// Allocates room in the memory of an instance. `x` are its exports, here and below.
function room(x, length) {
  const at = x.mencius_room(wide(length + 1));
  return Number(at) === 0 ? noMemory() : at;
}

// Copies these bytes to the memory of an instance, and returns their address.
function put(x, bytes) {
  const at = room(x, bytes.length);
  bytesAt(x, at, bytes.length).set(bytes);
  return at;
}

// Calls an export with these first arguments, these inputs, and buffers of these sizes for both texts. Returns the
// numbers of the answer, and the texts if both fit.
function call(x, name, first, inputs, printedRoom, saidRoom) {
  const given = inputs.map(bytes => [put(x, bytes), wide(bytes.length)]);
  const [out, err, answer] = [room(x, printedRoom), room(x, saidRoom), room(x, 32)];
  x[name](...first, ...given.flat(), out, wide(printedRoom), err, wide(saidRoom), answer);
  const [status, printed, said, asked] =
    [...new BigUint64Array(x.memory.buffer.slice(Number(answer), Number(answer) + 32))].map(Number);
  const fits = printed <= printedRoom && said <= saidRoom;
  const texts = fits ? { printed: bytesAt(x, out, printed).slice(), said: bytesAt(x, err, said).slice() } : null;
  for (const at of [...given.map(([at]) => at), out, err, answer]) x.mencius_give(at);
  return { status, asked: asked !== 0, lengths: [printed, said], texts };
}

// What a call returns if the module stopped.
function stopped(why) {
  const said = `mencius: fault 26 NoMemory\nmencius: the module stopped: ${why}\n`;
  return { status: 5, asked: true, printed: new Uint8Array(0), said: Buffer.from(said) };
}

// Does something with an instance. If the module stops, forgets the instance, because nothing is known of its memory.
function guarded(action, forget) {
  try {
    return action();
  } catch (e) {
    forget();
    if (!(e instanceof RangeError || e instanceof WebAssembly.RuntimeError)) throw e;
    return stopped(e.message);
  }
}

// Calls an export with these inputs. The last input is a scenario or a log. The output for a scenario is rarely longer
// than eight times the scenario, so `times` is 8. The output for a log is one line, so `times` is 0. If the module
// stops, the next call starts it anew.
function ask(name, inputs, times = 8) {
  return guarded(() => {
    const x = exports ??= start();
    let { status, asked, lengths, texts } = call(x, name, [], inputs, 65_536 + times * inputs.at(-1).length, 4_096);
    if (!texts) ({ texts } = call(x, name, [], inputs, ...lengths));
    return { status, asked, ...texts };
  }, () => { exports = undefined; });
}

// A short text of a value, for a message.
function shown(value) {
  const text = inspect(value, { depth: 0, maxArrayLength: 3, maxStringLength: 40, breakLength: Infinity });
  return text.length > 80 ? `${text.slice(0, 77)}...` : text;
}

function checkArguments(args) {
  if (!Array.isArray(args)) {
    throw new TypeError(`mencius: expected an array of arguments, such as ['replay'], but got ${shown(args)}`);
  }
  for (const [index, word] of args.entries()) {
    if (typeof word !== 'string' && !types.isUint8Array(word)) {
      throw new TypeError(`mencius: expected a string or a Uint8Array as argument ${index}, but got ${shown(word)}`);
    }
  }
}

function checkOptions(options) {
  const wrong = Object.entries(options).find(([, value]) => typeof value !== 'boolean' && value !== undefined);
  if (wrong) throw new TypeError(`Judge: expected true or false as the option ${wrong[0]}, but got ${shown(wrong[1])}`);
}

function checkInput(name, input) {
  if (types.isUint8Array(input)) return;
  const hint = typeof input === 'string' ? '. Pass new TextEncoder().encode(text)' : '';
  throw new TypeError(`${name}: expected the input as bytes (a Uint8Array), but got ${shown(input)}${hint}`);
}

// Calls the program with these arguments and this input. Returns its status, both texts, and whether it read the input.
// An argument is a string or bytes. The input is bytes. Throws a TypeError for any other value.
export function mencius(args, input = new Uint8Array(0)) {
  checkArguments(args);
  checkInput('mencius', input);
  const words = Buffer.concat(args.flatMap(word => [Buffer.from(word), Buffer.alloc(1)]));
  return ask('mencius_call', [words, input], isJudge(args) ? 0 : 8);
}

const isJudge = args => args.length > 0 && Buffer.from(args[0]).equals(Buffer.from('judge'));

// What each server knows after this scenario of `replay`. See docs/EMBEDDING.md, "What servers know". The input is
// bytes.
export function state(input) {
  checkInput('state', input);
  return ask('mencius_state', [input]);
}

// A judge that takes a log in pieces. It keeps what it needs to judge the rest, and no line after its end. It has an
// instance of the module of its own. See docs/EMBEDDING.md, "A log in pieces".
export class Judge {
  #exports;
  #at;
  #final = null;

  constructor({ brief, json } = {}) {
    checkOptions({ brief, json });
    this.#guard(() => {
      const x = this.#exports = start();
      this.#at = room(x, JUDGE);
      bytesAt(x, this.#at, JUDGE).fill(0);
      x.mencius_judge_begin(this.#at, Number(brief ?? false), Number(json ?? false));
    });
  }

  // Takes the next bytes of the log. Returns the verdict as soon as there is one, and null before that.
  take(bytes) {
    checkInput('take', bytes);
    if (this.#final) return this.#final;
    const answer = this.#ask('mencius_judge_take', [bytes]);
    if (answer.asked) return null;
    this.#exports = undefined;
    return this.#final = answer;
  }

  // The verdict on the log if it ends here. The judge may take more bytes after that.
  verdict() {
    return this.#final ?? this.#ask('mencius_judge_verdict', []);
  }

  #ask(name, inputs) {
    return this.#guard(() => {
      // Most pieces give no verdict, and then there are no texts.
      let { status, asked, lengths, texts } = call(this.#exports, name, [this.#at], inputs, 0, 0);
      // The judge gives the same verdict again. After a final verdict, it ignores its bytes.
      if (!texts) ({ texts } = call(this.#exports, name, [this.#at], inputs, ...lengths));
      return { status, asked, ...texts };
    });
  }

  // If the module stops, this is the final verdict.
  #guard(action) {
    let hasStopped = false;
    const answer = guarded(action, () => { hasStopped = true; });
    if (!hasStopped) return answer;
    this.#exports = undefined;
    return this.#final = { ...answer, asked: false };
  }
}

// Reads some bytes of standard input. Returns their number, which is 0 at the end, or -1 if reading failed.
function readSome(part) {
  for (;;) {
    try {
      return readSync(0, part);
    } catch (e) {
      if (e.code === 'EOF') return 0;
      if (e.code !== 'EAGAIN') return -1;
      sleep();
    }
  }
}

// Reads standard input to its end, or up to `most` bytes. Also returns whether reading failed.
function readInput(most) {
  const parts = [];
  for (let length = 0; length < most;) {
    const part = Buffer.allocUnsafe(Math.min(65_536, most - length));
    const count = readSome(part);
    if (count <= 0) return [Buffer.concat(parts), count < 0];
    parts.push(part.subarray(0, count));
    length += count;
  }
  return [Buffer.concat(parts), false];
}

// Judges a log while it is read. A line is not kept after its end.
function judgeInPieces(args) {
  const judge = new Judge({ brief: args.includes('--brief'), json: args.includes('--json') });
  for (const part = Buffer.allocUnsafe(65_536);;) {
    const count = readSome(part);
    if (count < 0) return failed('24 ReadFailed');
    const verdict = count === 0 ? judge.verdict() : judge.take(part.subarray(0, count));
    if (verdict) return tell(verdict);
  }
}

// Writes the bytes, and returns whether all of them could be written.
function write(stream, bytes) {
  for (let at = 0; at < bytes.length;) {
    try {
      at += writeSync(stream, bytes, at);
    } catch (e) {
      if (e.code !== 'EAGAIN') return false;
      sleep();
    }
  }
  return true;
}

// The arguments. Node decodes them as UTF-8, which replaces other bytes. In that case, /proc has the original bytes.
function readArguments() {
  const args = process.argv.slice(2);
  if (args.length === 0 || !args.some(word => word.includes('\ufffd'))) return args;
  try {
    const words = readFileSync('/proc/self/cmdline', 'latin1').split('\0').slice(0, -1);
    return words.slice(-args.length).map(word => Buffer.from(word, 'latin1'));
  } catch {
    return args;
  }
}

// Reports a failure of reading, writing or memory, in the words of the program. Returns the exit status.
function failed(line, status = 4) {
  write(2, Buffer.from(`mencius: fault ${line}\n`));
  return status;
}

// Writes both texts of an answer, and returns its status.
function tell(answer) {
  if (!write(1, answer.printed)) return failed('25 WriteFailed');
  write(2, answer.said);
  return answer.status;
}

function main(args) {
  let answer = mencius(args);
  if (answer.asked) {
    if (isJudge(args) && !args.includes('--clients')) return judgeInPieces(args);
    const [input, hasFailed] = readInput(isJudge(args) ? MOST_OF_A_LOG : MOST);
    if (hasFailed) return failed('24 ReadFailed' + (isJudge(args) ? '' : '\nthe scenario could not be read to its end'));
    if (input.length === MOST_OF_A_LOG) return failed('26 NoMemory', 5);
    answer = mencius(args, input);
  }
  return tell(answer);
}

// Whether this file was started and not imported. If `node -e` imports it, the first argument may be any word.
function isProgram() {
  try {
    return fileURLToPath(import.meta.url) === realpathSync(process.argv[1]);
  } catch {
    return false;
  }
}

// Exits at once, because the verdict may come before the end of the log.
if (isProgram()) process.exit(main(readArguments()));
