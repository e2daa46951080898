// The numbers of a model: where they are in its text, and the text with another number there. All else stays as it was.

/** @typedef {{owner: string, key: string, value: string, from: number, to: number}} ModelNumber */

const HEADING = /^\[+([\w.]+)\]+/;
const NAMED = /^name\s*=\s*"([^"]*)"/;
const NUMBER = /^(\w+)\s*=\s*(-?\d[\d_]*)(?=\s*(#|$))/;

/**
 * The numbers that have a key of their own, each with whom it belongs to.
 * @param {string} text
 * @returns {ModelNumber[]}
 */
function numbersOf(text) {
  /** @type {ModelNumber[]} */
  const numbers = [];
  let [owner, at] = ['', 0];
  for (const line of text.split('\n')) {
    const [heading, named, number] = [HEADING.exec(line), NAMED.exec(line), NUMBER.exec(line)];
    if (heading) owner = heading[1];
    if (named) owner = named[1];
    if (number && owner) {
      const from = at + number[0].length - number[2].length;
      numbers.push({ owner, key: number[1], value: number[2], from, to: from + number[2].length });
    }
    at += line.length + 1;
  }
  return numbers;
}

/**
 * The text with another number in place of one.
 * @param {string} text
 * @param {ModelNumber} number
 * @param {string} value
 */
const withNumber = (text, number, value) => text.slice(0, number.from) + value + text.slice(number.to);

/**
 * What a key means to a reader: `initial_storage` is "initial storage".
 * @param {string} key
 */
const spoken = key => key.replaceAll('_', ' ');

/**
 * Whether this is a whole number as a model has it.
 * @param {string} text
 */
const isNumber = text => /^-?\d[\d_]*$/.test(text);
