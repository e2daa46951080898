// node again.js ENGINE FOLDER..: makes the calls that were kept again, in one process, and says which differ.
import fs from 'node:fs';
import path from 'node:path';
import { difference } from './calls.js';

const [, , engine, ...folders] = process.argv;
const { load } = await import(path.resolve(engine, 'basin.js'));
const basin = await load(fs.readFileSync(path.join(engine, 'basin.wasm')));
for (const folder of folders) {
  const names = fs.readdirSync(folder).filter(name => /^\d+-\d+$/.test(name)).sort();
  const found = names.map(name => difference(basin, fs.readFileSync(path.join(folder, name)))).filter(Boolean);
  found.slice(0, 5).forEach(line => console.log(`${path.basename(folder)}: ${line.slice(0, 300)}`));
  console.log(`${path.basename(folder)}: ${names.length} calls, ${found.length} differ`);
  if (found.length || !names.length) process.exitCode = 1;
}
