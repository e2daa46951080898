// What tools/web puts before the scripts of the page, and what browsers have beyond TypeScript's own library.
declare const WORKER: string;
declare const EXAMPLES: { name: string; title: string; files: Record<string, string> }[];
declare class DecompressionStream {
  constructor(format: 'gzip');
  readonly readable: ReadableStream<Uint8Array>;
  readonly writable: WritableStream<Uint8Array>;
}
