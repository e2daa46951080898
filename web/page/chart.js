// The chart of one slot: a line of this run, and a dashed one of the run before.

const SVG = 'http://www.w3.org/2000/svg';
const [HEIGHT, LEFT, RIGHT, TOP, BOTTOM] = [240, 110, 10, 12, 22];
const NARROWEST = 240;

/**
 * @param {string} kind
 * @param {Record<string, string | number>} attributes
 * @param {string} [text]
 */
function drawn(kind, attributes, text = '') {
  const element = document.createElementNS(SVG, kind);
  for (const [name, value] of Object.entries(attributes)) element.setAttribute(name, String(value));
  element.textContent = text;
  return element;
}

/**
 * The values of a slot; NaN where one is unknown.
 * @param {Table | null} table
 * @param {string} slot
 */
function seriesOf(table, slot) {
  const at = table ? table.slots.indexOf(slot) : -1;
  return table && at >= 0 ? table.steps.map(step => (isNumber(step.values[at] ?? '') ? Number(step.values[at]) : NaN)) : [];
}

/**
 * Shows the chart.
 * @param {Element} place
 * @param {string} slot
 * @param {Table} table
 * @param {Table | null} before
 */
function showChart(place, slot, table, before) {
  const all = [seriesOf(before, slot), seriesOf(table, slot)];
  const known = all.flat().filter(Number.isFinite);
  const [least, greatest] = [Math.min(...known), Math.max(...known)];
  const end = Math.max(NARROWEST, place.clientWidth) - RIGHT;
  const right = (/** @type {number} */ value) => LEFT + (end - LEFT) * (value / Math.max(1, table.steps.length - 1));
  const down = (/** @type {number} */ value) => TOP + (HEIGHT - TOP - BOTTOM) * (greatest === least ? 0.5 : (greatest - value) / (greatest - least));
  const picture = drawn('svg', { viewBox: `0 0 ${end + RIGHT} ${HEIGHT}`, role: 'img', 'aria-label': `${slot} over time` });
  if (known.length) {
    for (const value of new Set([least, greatest])) {
      picture.append(drawn('line', { class: 'axis', x1: LEFT, x2: end, y1: down(value), y2: down(value) }));
      picture.append(drawn('text', { x: LEFT - 8, y: down(value) + 4, 'text-anchor': 'end' }, value.toLocaleString('en')));
    }
    all.forEach((series, number) => {
      const points = series.flatMap((value, at) => (Number.isFinite(value) ? [`${right(at).toFixed(1)},${down(value).toFixed(1)}`] : []));
      picture.append(drawn('polyline', { class: number ? 'now' : 'before', points: points.join(' ') }));
    });
  }
  const [first, last] = [table.steps[0], table.steps[table.steps.length - 1]];
  if (first) picture.append(drawn('text', { x: LEFT, y: HEIGHT - 4 }, first.stamp.slice(0, 10)));
  if (last) picture.append(drawn('text', { x: end, y: HEIGHT - 4, 'text-anchor': 'end' }, last.stamp.slice(0, 10)));
  place.replaceChildren(picture);
}
