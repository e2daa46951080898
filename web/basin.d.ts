/** What a call comes to: the status of the program, and the bytes that it writes to its two streams. */
export interface Answer {
  status: number;
  out: Uint8Array;
  err: Uint8Array;
}

/** Files by path: texts or bytes. A path that isn't among them is one of no file. */
export type Files = Readonly<Record<string, string | Uint8Array>> | ReadonlyMap<string, string | Uint8Array>;

/** What may be chosen. */
export interface Choices {
  /** The bytes that the program's memory has at most, up to 4 GiB, which is the rule. A call that wants more has status 5. */
  most?: number;
  /** The bytes of memory that are kept for the next call at most. The rule is 128 MiB. */
  kept?: number;
  /** The bytes of output for which there is room at first. Where a call writes more, it is made again. The rule is 16 MiB. */
  room?: number;
}

/** The program, with an instance that is kept between calls. */
export class Basin {
  constructor(module: WebAssembly.Module, choices?: Choices);
  /** The bytes of memory that are kept for the next call. */
  get memory(): number;
  /**
   * Runs the program on its words, without its own name. Throws where the JavaScript stack is too short for a ruleset, and where a
   * word or a path is no text; the next call is as good as before.
   */
  run(words: readonly string[], files?: Files): Answer;
}

/** Makes the program of the bytes of `basin.wasm`. */
export function load(bytes: BufferSource, choices?: Choices): Promise<Basin>;
