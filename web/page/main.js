// The page: texts, runs, and what is shown of them.

/** @template {HTMLElement} T @param {string} name @returns {T} */
const part = name => /** @type {T} */ (document.getElementById(name));
/** @param {string} name */
const button = name => /** @type {HTMLButtonElement} */ (part(name));
const engine = new Engine(part('engine').textContent ?? '');
/** @type {Record<string, HTMLTextAreaElement>} */
const TEXTS = { 'model.toml': part('model'), 'policy.rpl': part('rules'), 'inputs.csv': part('inputs') };
// A policy without a rule, by which a model without rules is asked why.
const NO_RULES = 'CODE 1\n';
/** @type {{example: number, first: Table | null, shown: Table | null, runs: number}} */
const state = { example: 0, first: null, shown: null, runs: 0 };

/** The texts as they stand, under their names; rules only where there are some. */
function filesNow() {
  const files = Object.fromEntries(Object.entries(TEXTS).map(([name, area]) => [name, area.value]));
  if (!files['policy.rpl'].trim()) delete files['policy.rpl'];
  return files;
}

/** @param {string} text @param {boolean} [isRefused] */
function say(text, isRefused = false) {
  part('said').textContent = text;
  part('said').classList.toggle('refused', isRefused);
}

/** @param {string} owner */
function fieldsetOf(owner) {
  const group = document.createElement('fieldset');
  group.append(Object.assign(document.createElement('legend'), { textContent: owner }));
  return group;
}

/** Shows the numbers of the model in fields, and marks those that were changed. */
function showNumbers() {
  const text = TEXTS['model.toml'].value;
  const first = numbersOf(EXAMPLES[state.example].files['model.toml']);
  const groups = new Map();
  numbersOf(text).forEach((number, at) => {
    if (!groups.has(number.owner)) groups.set(number.owner, fieldsetOf(number.owner));
    const group = groups.get(number.owner);
    const field = Object.assign(document.createElement('input'), { value: number.value, inputMode: 'numeric' });
    field.classList.toggle('changed', first[at]?.value !== number.value);
    field.addEventListener('change', () => changed(number, field));
    const label = Object.assign(document.createElement('label'), { textContent: spoken(number.key) });
    label.append(field);
    group.append(label);
  });
  part('numbers').replaceChildren(...groups.values());
}

/** @param {ModelNumber} number @param {HTMLInputElement} field */
function changed(number, field) {
  if (!isNumber(field.value)) {
    say(`${spoken(number.key)} of ${number.owner}: a whole number is needed`, true);
    return;
  }
  TEXTS['model.toml'].value = withNumber(TEXTS['model.toml'].value, number, field.value);
  showNumbers();
  run();
}

/** Runs the texts, and shows the table, or why there is none. What was shown stays where the program refuses. */
async function run() {
  if (engine.isBusy) engine.stop();
  state.runs += 1;
  const mine = state.runs;
  const files = filesNow();
  const words = 'policy.rpl' in files ? ['run', 'model.toml', 'policy.rpl', 'inputs.csv'] : ['simulate', 'model.toml', 'inputs.csv'];
  button('stop').disabled = false;
  button('undo').disabled = Object.entries(TEXTS).every(([name, area]) => area.value === (EXAMPLES[state.example].files[name] ?? ''));
  say('Running..');
  const began = performance.now();
  const said = await engine.run(words, files).catch(error => error);
  // A newer run says what there is to say.
  if (mine !== state.runs) return;
  button('stop').disabled = true;
  if (said instanceof Error) say(said instanceof Stopped ? 'Stopped. The table below is of the run before.' : said.message, true);
  else ended(said, performance.now() - began);
}

/** @param {Said} said @param {number} took */
function ended(said, took) {
  if (said.status > 1) {
    say(`Not run: ${said.err.trim()}. The table below is of the run before.`, true);
    return;
  }
  const table = tableOf(said.out);
  state.first ??= table;
  state.shown = table;
  say(said.status ? `The run ended in a fault: ${table.ended}` : `The run settled in ${Math.round(took)} ms.`, said.status === 1);
  showSlots(table);
  showResults();
}

/** @param {Table} table */
function showSlots(table) {
  const list = /** @type {HTMLSelectElement} */ (part('slot'));
  const chosen = list.value;
  list.replaceChildren(...table.slots.map(slot => new Option(slot, slot)));
  list.value = table.slots.includes(chosen) ? chosen : (table.slots.find(slot => /\.(Storage|Outflow)$/.test(slot)) ?? table.slots[0] ?? '');
}

function showResults() {
  const { shown, first } = state;
  if (!shown) return;
  const before = first === shown ? null : first;
  showChart(part('chart'), /** @type {HTMLSelectElement} */ (part('slot')).value, shown, before);
  showTable(part('table'), shown, before, askWhy);
}

/** @param {string} slot @param {string} step */
async function askWhy(slot, step) {
  const files = { 'policy.rpl': NO_RULES, ...filesNow() };
  try {
    showWhy(part('why'), slot, step, await engine.run(['why', 'model.toml', 'policy.rpl', 'inputs.csv', slot, step], files));
  } catch (error) {
    say(String(error), true);
  }
}

/** Opens an example, and runs it. */
function openExample() {
  const { title, files } = EXAMPLES[state.example];
  part('title').textContent = title;
  for (const [name, area] of Object.entries(TEXTS)) area.value = files[name] ?? '';
  state.first = state.shown = null;
  part('why').hidden = true;
  showNumbers();
  run();
}

part('example').append(...EXAMPLES.map(({ name }, at) => new Option(name, String(at))));
part('example').addEventListener('change', () => {
  state.example = Number(/** @type {HTMLSelectElement} */ (part('example')).value);
  openExample();
});
part('run').addEventListener('click', () => {
  showNumbers();
  run();
});
part('stop').addEventListener('click', () => engine.stop());
part('undo').addEventListener('click', openExample);
part('slot').addEventListener('change', showResults);
addEventListener('resize', showResults);
Object.values(TEXTS).forEach(area => area.addEventListener('change', () => {
  showNumbers();
  run();
}));
openExample();
