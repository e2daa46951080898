// How a cell got its value: what the program's `why` writes, in words.

/**
 * A line of `why` in words.
 * @param {string} line
 */
function saidOf(line) {
  const words = line.split(' ');
  if (words[0] === 'given') return `The inputs give ${words[1]}.`;
  if (words[0] === 'holds') return words[1] === 'unknown' ? 'The cell is unknown.' : `The cell holds ${words[1]}.`;
  const [, step, kind, who, value] = words;
  return kind === 'rule' ? `In timestep ${step} rule ${who} set ${value}.` : `In timestep ${step} object ${who} solved ${value}.`;
}

/**
 * Shows how a cell got its value.
 * @param {HTMLElement} place
 * @param {string} slot
 * @param {string} step
 * @param {Said} said
 */
function showWhy(place, slot, step, said) {
  const heading = Object.assign(document.createElement('h2'), { textContent: `${slot} in timestep ${step}` });
  const list = document.createElement('ol');
  const lines = said.status > 1 ? [said.err.trim()] : said.out.trimEnd().split('\n').map(saidOf);
  list.append(...lines.map(line => Object.assign(document.createElement('li'), { textContent: line })));
  place.replaceChildren(heading, list);
  place.hidden = false;
}
