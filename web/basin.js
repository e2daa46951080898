// @ts-check
// The program `basin` in Node and in browsers: `const basin = await load(bytes)`, then `basin.run(words, files)`.

/** @typedef {import('./basin').Answer} Answer */
/** @typedef {import('./basin').Files} Files */
/** @typedef {import('./basin').Choices} Choices */
/** @typedef {{memory: WebAssembly.Memory, exports: any, data: Uint8Array, from: number}} Instance */

const PAGE = 65536;
// Pages that the module is linked for, and pages that a memory of 32 bits has at most.
const FIRST = 64;
const MOST = 65536;
// Bytes of the four numbers on what was written, and bytes for the line of an error, at first.
const WRITTEN = 32;
const ERRORS = 65536;
const NO_MEMORY = 5;
const NO_TEXT = 255;

const coder = new TextEncoder();

/**
 * What the program answers where memory is wanting before it begins.
 * @returns {Answer}
 */
const wanting = () => ({ status: NO_MEMORY, out: new Uint8Array(0), err: coder.encode('basin: want of memory\n') });

/**
 * The bytes of a text.
 * @param {string | Uint8Array} text
 */
const bytesOf = text => (typeof text === 'string' ? coder.encode(text) : text);

/** @param {readonly number[]} numbers */
const sum = numbers => numbers.reduce((all, one) => all + one, 0);

/** @param {readonly Uint8Array[]} texts */
const lengthOf = texts => sum(texts.map(text => text.length));

/**
 * Writes texts behind one another, and their lengths.
 * @param {WebAssembly.Memory} memory
 * @param {readonly Uint8Array[]} texts
 * @param {number} at
 * @param {number} lengths
 */
function place(memory, texts, at, lengths) {
  const bytes = new Uint8Array(memory.buffer);
  const view = new DataView(memory.buffer);
  let end = at;
  texts.forEach((text, number) => {
    view.setBigUint64(lengths + 8 * number, BigInt(text.length), true);
    bytes.set(text, end);
    end += text.length;
  });
}

/** The program, with an instance that is kept between calls. */
export class Basin {
  /** @type {WebAssembly.Module} */ #module;
  /** @type {Required<Choices>} */ #choices;
  /** @type {Instance | null} */ #kept = null;

  /**
   * @param {WebAssembly.Module} module
   * @param {Choices} [choices]
   */
  constructor(module, choices = {}) {
    this.#module = module;
    this.#choices = { most: MOST * PAGE, kept: 2048 * PAGE, room: 256 * PAGE, ...choices };
  }

  /** The bytes of memory that are kept for the next call. */
  get memory() {
    return this.#kept ? this.#kept.memory.buffer.byteLength : 0;
  }

  /**
   * Runs the program on its words, without its own name.
   * @param {readonly string[]} words
   * @param {Files} [files]
   * @returns {Answer}
   */
  run(words, files = {}) {
    const held = files instanceof Map ? [...files] : Object.entries(files);
    const texts = [words.map(bytesOf), held.map(([path]) => bytesOf(path)), held.map(([, content]) => bytesOf(content))];
    let rooms = [this.#choices.room, ERRORS];
    for (;;) {
      const { answer, wanted } = this.#call(texts, rooms);
      if (answer) return answer;
      rooms = wanted;
    }
  }

  /**
   * An instance as at the beginning: a new one, or the kept one with its data as they were.
   * @returns {Instance | null}
   */
  #instance() {
    const kept = this.#kept;
    if (kept) {
      // After a trap it isn't kept.
      this.#kept = null;
      new Uint8Array(kept.memory.buffer).set(kept.data, kept.from);
      return kept;
    }
    const maximum = Math.min(MOST, Math.max(FIRST, Math.floor(this.#choices.most / PAGE)));
    let memory;
    try {
      memory = new WebAssembly.Memory({ initial: FIRST, maximum });
    } catch {
      return null;
    }
    const exports = /** @type {any} */ (new WebAssembly.Instance(this.#module, { env: { memory } }).exports);
    const from = exports.__global_base.value;
    return { memory, exports, data: new Uint8Array(memory.buffer).slice(from, exports.__heap_base.value), from };
  }

  /**
   * One call, with so much room for the output and the errors: what it comes to, or how much room it wants.
   * @param {Uint8Array[][]} texts words, paths and contents
   * @param {number[]} rooms
   * @returns {{answer: Answer | null, wanted: number[]}}
   */
  #call(texts, rooms) {
    const instance = this.#instance();
    const sizes = [WRITTEN, ...texts.map(some => 8 * some.length), ...texts.map(lengthOf), ...rooms];
    const at = instance ? instance.exports.room(Math.min(sum(sizes), 2 ** 32 - 1)) >>> 0 : 0;
    if (!instance || !at) return { answer: wanting(), wanted: rooms };
    const places = sizes.map((_, number) => at + sum(sizes.slice(0, number)));
    texts.forEach((some, number) => place(instance.memory, some, places[4 + number], places[1 + number]));
    const words = texts.flatMap((some, number) => [places[4 + number], BigInt(lengthOf(some)), places[1 + number], BigInt(some.length)]);
    const [out, err] = places.slice(7);
    const status = instance.exports.basin_call(...words, out, BigInt(rooms[0]), err, BigInt(rooms[1]), places[0]);
    return this.#ended(instance, status, places, rooms);
  }

  /**
   * What a call has come to.
   * @param {Instance} instance
   * @param {number} status
   * @param {number[]} places
   * @param {number[]} rooms
   */
  #ended(instance, status, places, rooms) {
    const { buffer } = instance.memory;
    if (buffer.byteLength <= this.#choices.kept) this.#kept = instance;
    if (status === NO_TEXT) throw new TypeError('basin: a word or a path is no text');
    const [count, whole, said, saidWhole] = Array.from(new BigUint64Array(buffer.slice(places[0], places[0] + WRITTEN)), Number);
    const wanted = [Math.max(count, rooms[0]), Math.max(said, rooms[1])];
    if (status === NO_MEMORY && !whole && !saidWhole) return { answer: wanting(), wanted };
    if (!whole || !saidWhole) return { answer: null, wanted };
    const [out, err] = [new Uint8Array(buffer, places[7], count).slice(), new Uint8Array(buffer, places[8], said).slice()];
    return { answer: { status, out, err }, wanted };
  }
}

/**
 * Makes the program of the bytes of `basin.wasm`.
 * @param {BufferSource} bytes
 * @param {Choices} [choices]
 */
export async function load(bytes, choices) {
  return new Basin(await WebAssembly.compile(bytes), choices);
}
