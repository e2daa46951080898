// node stack.js MIB ENGINE FOLDER..: again.js in a Worker that has so many MiB of stack.
import { Worker } from 'node:worker_threads';

const [, , mib, ...words] = process.argv;
const worker = new Worker(new URL('./again.js', import.meta.url), { argv: words, resourceLimits: { stackSizeMb: Number(mib) } });
worker.on('exit', status => {
  process.exitCode = status;
});
