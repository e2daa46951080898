// The table of a run: read from what the program writes, and shown with a button in each cell.

/** @typedef {{ended: string, slots: string[], steps: {step: string, stamp: string, values: string[]}[]}} Table */

/**
 * The first section of what `run` or `simulate` writes.
 * @param {string} out
 * @returns {Table}
 */
function tableOf(out) {
  const [ended, heads, ...lines] = out.trimEnd().split('\n');
  const slots = heads.split(',').slice(2);
  const rows = lines.filter(line => /^\d+,/.test(line)).map(line => line.split(','));
  return { ended: ended.replace(/^# batch \d+ /, ''), slots, steps: rows.map(([step, stamp, ...values]) => ({ step, stamp, values })) };
}

/**
 * A cell of the table.
 * @param {string} value
 * @param {string | undefined} before
 * @param {() => void} chosen
 */
function cellOf(value, before, chosen) {
  const cell = document.createElement('td');
  const button = document.createElement('button');
  button.type = 'button';
  button.textContent = value;
  button.addEventListener('click', () => {
    document.querySelectorAll('td.chosen').forEach(other => other.classList.remove('chosen'));
    cell.classList.add('chosen');
    chosen();
  });
  if (before !== undefined && before !== value) {
    cell.className = 'differs';
    cell.title = `was ${before}`;
  }
  cell.append(button);
  return cell;
}

/** @param {readonly string[]} texts */
function headOf(texts) {
  const row = document.createElement('tr');
  row.append(...texts.map(text => Object.assign(document.createElement('th'), { textContent: text, scope: 'col' })));
  const head = document.createElement('thead');
  head.append(row);
  return head;
}

/**
 * Shows a table, and marks what differs from the one before.
 * @param {Element} place
 * @param {Table} table
 * @param {Table | null} before
 * @param {(slot: string, step: string) => void} ask
 */
function showTable(place, table, before, ask) {
  const body = document.createElement('tbody');
  const columns = table.slots.map(slot => before?.slots.indexOf(slot) ?? -1);
  table.steps.forEach((step, number) => {
    const row = document.createElement('tr');
    const heads = [step.step, step.stamp.replace('T', ' ')].map(text => Object.assign(document.createElement('th'), { textContent: text }));
    const cells = step.values.map((value, at) => cellOf(value, before?.steps[number]?.values[columns[at]], () => ask(table.slots[at], step.step)));
    row.append(...heads, ...cells);
    body.append(row);
  });
  const shown = document.createElement('table');
  shown.append(headOf(['step', 'end of the timestep', ...table.slots]), body);
  place.replaceChildren(shown);
}
