// node limits.js ENGINE EXAMPLE: a thousand calls keep their memory; with less and less of it a call ends with status 5, or is right.
import fs from 'node:fs';
import path from 'node:path';

const MIB = 1024 * 1024;
const CALLS = 1000;
const [, , engine, example] = process.argv;
const { load } = await import(path.resolve(engine, 'basin.js'));
const bytes = fs.readFileSync(path.join(engine, 'basin.wasm'));
const files = Object.fromEntries(['model.toml', 'policy.rpl', 'inputs.csv'].map(name => [name, fs.readFileSync(path.join(example, name))]));
const words = ['run', 'model.toml', 'policy.rpl', 'inputs.csv', '--trace'];
let failed = 0;

function judge(said, isRight) {
  console.log(`${said}: ${isRight ? 'right' : 'wrong'}`);
  if (!isRight) failed += 1;
}

async function thousand() {
  const basin = await load(bytes);
  const first = basin.run(words, files);
  const memory = basin.memory;
  let same = 0;
  for (let call = 0; call < CALLS; call += 1) same += Number(!Buffer.compare(basin.run(words, files).out, first.out));
  judge(`${CALLS} calls, ${memory} bytes of memory after the first, ${basin.memory} after all`, first.status === 0 && same === CALLS && basin.memory === memory);
  return first;
}

async function lessMemory(right) {
  const counts = { right: 0, wanting: 0, other: 0 };
  for (let most = 4; most <= 96; most += 1) {
    const answer = (await load(bytes, { most: most * MIB, room: 65536 })).run(words, files);
    const isRight = answer.status === 0 && !Buffer.compare(answer.out, right.out);
    const isWanting = answer.status === 5 && Buffer.from(answer.err).toString() === 'basin: want of memory\n';
    counts[isRight ? 'right' : isWanting ? 'wanting' : 'other'] += 1;
  }
  judge(`memory of 4 to 96 MiB: ${JSON.stringify(counts)}`, counts.right > 0 && counts.wanting > 0 && counts.other === 0);
}

async function refusals() {
  const basin = await load(bytes);
  judge('a file that is missing has status 3', basin.run(['simulate', 'nowhere', 'inputs.csv'], files).status === 3);
  judge('no words have status 2', basin.run([]).status === 2);
  judge('a call after another is as good', basin.run(words, files).status === 0);
}

const right = await thousand();
await lessMemory(right);
await refusals();
process.exitCode = failed ? 1 : 0;
