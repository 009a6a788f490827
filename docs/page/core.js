'use strict';
// The proved code, as WebAssembly. A call takes arguments and standard input. It returns the standard output, the
// standard error and the status of the program. No other code of the page computes anything of the protocol.

// Decodes a text in base64. For the module, this loop is several times faster than `Uint8Array.from`.
function bytesOfBase64(text) {
  const letters = atob(text), bytes = new Uint8Array(letters.length);
  for (let at = 0; at < letters.length; at += 1) bytes[at] = letters.charCodeAt(at);
  return bytes;
}

// Decodes a text in base64, and decompresses the result with gzip.
async function unpacked(text) {
  const stream = new Blob([bytesOfBase64(text)]).stream().pipeThrough(new DecompressionStream('gzip'));
  return new Uint8Array(await new Response(stream).arrayBuffer());
}

class Core {
  // If the module traps or runs out of memory, it is started again, and `whenStopped` is called with the reason.
  constructor(module, whenStopped) {
    this.module = module;
    this.whenStopped = whenStopped;
    this.exports = null;
    this.longest = {};
    this.coder = new TextEncoder();
    this.latest = { input: null, bytes: null };
  }

  start() {
    this.exports ??= new WebAssembly.Instance(this.module, {}).exports;
    return this.exports;
  }

  room(length) {
    const at = this.start().mencius_room(BigInt(length + 1));
    if (Number(at) === 0) throw new RangeError('out of memory');
    return at;
  }

  bytesAt(at, length) {
    return new Uint8Array(this.exports.memory.buffer, Number(at), length);
  }

  put(bytes) {
    const at = this.room(bytes.length);
    this.bytesAt(at, bytes.length).set(bytes);
    return at;
  }

  // A step makes several calls with the same input, which may be long, so the bytes of the latest one are kept.
  bytesOf(input) {
    if (this.latest.input !== input) this.latest = { input, bytes: this.coder.encode(input) };
    return this.latest.bytes;
  }

  // Makes one call with buffers of these sizes. Returns the lengths of both texts, and the texts or null if one of them
  // does not fit.
  attempt(words, input, rooms) {
    const places = [this.put(words), this.put(input), ...rooms.map(room => this.room(room)), this.room(32)];
    const [a, b, out, err, answer] = places;
    this.exports.mencius_call(a, BigInt(words.length), b, BigInt(input.length), out, BigInt(rooms[0]), err,
      BigInt(rooms[1]), answer);
    const [status, printed, said] = [...new BigUint64Array(this.bytesAt(answer, 32).slice().buffer)].map(Number);
    const fits = printed <= rooms[0] && said <= rooms[1];
    const read = (at, length) => new TextDecoder().decode(this.bytesAt(at, length));
    const texts = fits ? [read(out, printed), read(err, said)] : null;
    for (const place of places) this.exports.mencius_give(place);
    return { status, lengths: [printed, said], texts };
  }

  // The texts and the status of a call. The first attempt uses a buffer of 1 MB, or of the size that was enough for this
  // task so far. If it is too small, the second attempt uses the lengths that the first one returned.
  answer(args, input) {
    const task = args[0], bytes = this.bytesOf(input);
    const words = this.coder.encode(args.map(word => word + '\0').join(''));
    const room = this.longest[task] ?? 1_000_000;
    let found = this.attempt(words, bytes, [room, 4096]);
    if (!found.texts) found = this.attempt(words, bytes, found.lengths);
    this.longest[task] = Math.max(room, Math.floor(1.5 * found.lengths[0]));
    const [printed, said] = found.texts;
    return { status: found.status, printed, said };
  }

  // Calls the program with these arguments and this input. Returns its status, its standard output and its standard
  // error. If the module stops, it is started again and called a second time.
  call(args, input) {
    try {
      return this.answer(args, input);
    } catch (error) {
      this.restart(error);
    }
    try {
      return this.answer(args, input);
    } catch (error) {
      this.restart(error);
      const said = `mencius: fault 26 NoMemory\nthe module stopped twice: ${error.message}\n`;
      return { status: 5, printed: '', said };
    }
  }

  restart(error) {
    if (!(error instanceof RangeError || error instanceof WebAssembly.RuntimeError)) throw error;
    this.exports = null;
    this.longest = {};
    this.whenStopped(error.message);
  }
}

// The words of a fault. The line with its number is left out if another line follows.
function wordsOf(said) {
  const lines = said.trimEnd().split('\n');
  return (lines[1] ?? lines[0]).replace(/^mencius: /, '');
}
