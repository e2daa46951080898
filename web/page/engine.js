// The program behind the page: calls that a Worker of this page makes, which can be stopped.

/** @typedef {{status: number, out: string, err: string}} Said */

/**
 * The bytes of the module, which stands in the page packed.
 * @param {string} packed
 * @returns {Promise<ArrayBuffer>}
 */
function unpacked(packed) {
  const bytes = Uint8Array.from(atob(packed.trim()), letter => letter.charCodeAt(0));
  return new Response(new Blob([bytes]).stream().pipeThrough(new DecompressionStream('gzip'))).arrayBuffer();
}

class Stopped extends Error {}

class Engine {
  /** @type {Worker | null} */ #worker = null;
  /** @type {Map<number, {done: (said: Said) => void, failed: (error: Error) => void}>} */ #waiting = new Map();
  /** @type {Promise<ArrayBuffer>} */ #module;
  #number = 0;
  #stops = 0;

  /** @param {string} packed the module, as the page has it */
  constructor(packed) {
    this.#module = unpacked(packed);
  }

  /** Whether a call is under way. */
  get isBusy() {
    return this.#waiting.size > 0;
  }

  /**
   * Runs the program on words and files.
   * @param {string[]} words
   * @param {Record<string, string>} files
   * @returns {Promise<Said>}
   */
  async run(words, files) {
    const stops = this.#stops;
    const module = await this.#module;
    if (stops !== this.#stops) throw new Stopped('stopped');
    const worker = this.#worker ?? this.#begun(module);
    this.#number += 1;
    const number = this.#number;
    return new Promise((done, failed) => {
      this.#waiting.set(number, { done, failed });
      worker.postMessage({ number, words, files });
    });
  }

  /** Ends what is under way. The next call begins anew. */
  stop() {
    this.#stops += 1;
    this.#worker?.terminate();
    this.#worker = null;
    for (const { failed } of this.#waiting.values()) failed(new Stopped('stopped'));
    this.#waiting.clear();
  }

  /** @param {ArrayBuffer} module */
  #begun(module) {
    const address = URL.createObjectURL(new Blob([WORKER], { type: 'text/javascript' }));
    const worker = new Worker(address);
    worker.onmessage = ({ data }) => this.#ended(data);
    worker.postMessage({ module });
    this.#worker = worker;
    return worker;
  }

  /** @param {{number: number, answer?: {status: number, out: Uint8Array, err: Uint8Array}, fault?: string}} data */
  #ended({ number, answer, fault }) {
    const waits = this.#waiting.get(number);
    this.#waiting.delete(number);
    const coder = new TextDecoder();
    if (answer) waits?.done({ status: answer.status, out: coder.decode(answer.out), err: coder.decode(answer.err) });
    else waits?.failed(new Error(fault));
  }
}
