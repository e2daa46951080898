// Inputs as cells, and changes of cells in their text: rows of other slots stay as they are.
const fieldsOf = (line) => {
  if (!line.includes('"')) return line.split(",");
  return [...line.matchAll(/(?:^|,)(?:"((?:[^"]|"")*)"|([^,]*))/g)].map((one) => (one[1] !== undefined ? one[1].replace(/""/g, '"') : one[2]));
};

// A row: its slot, its timesteps and its value; nothing where it gives none.
export const rowOf = (line) => {
  const [name, steps, value] = fieldsOf(line.endsWith("\r") ? line.slice(0, -1) : line);
  if (!steps) return null;
  const dash = steps.indexOf("-"), first = Number(dash < 0 ? steps : steps.slice(0, dash)), last = dash < 0 ? first : Number(steps.slice(dash + 1));
  return Number.isInteger(first) && Number.isInteger(last) ? { name, first, last: Math.min(last, 4096), value } : null;
};

export class Inputs {
  constructor(text, slots) {
    this.text = text;
    this.lines = text.split(/\r\n?|\n/);
    this.cells = new Map(); // by the name of a slot: a map from timesteps to values, as texts
    this.names = [];
    const groups = new Map(); // by the first slot of a link: names under which its cells are given
    let last = "", cells = null;
    for (let place = 1; place < this.lines.length; place += 1) {
      const row = rowOf(this.lines[place]);
      if (!row) continue;
      if (row.name !== last) {
        if (!this.cells.has(row.name)) { this.cells.set(row.name, new Map()); this.names.push(row.name); }
        [last, cells] = [row.name, this.cells.get(row.name)];
      }
      for (let step = row.first; step <= row.last; step += 1) cells.set(step, row.value);
    }
    for (const name of this.names) {
      const first = slots.get(name)?.first;
      if (first !== undefined) groups.set(first, [...(groups.get(first) || []), name]);
    }
    this.groups = groups;
  }

  // What inputs give a slot at a timestep, under its own name or that of a slot that is linked to it.
  given(slot, step) {
    for (const name of this.groups.get(slot.first) || []) {
      const value = this.cells.get(name)?.get(step);
      if (value !== undefined) return { value, name };
    }
    return null;
  }

  // The same with other cells: changes are [slot, step, value], with "" where nothing is given any more.
  changed(changes) {
    const bySlot = new Map();
    for (const [slot, step, value] of changes) {
      const name = this.given(slot, step)?.name || (this.cells.has(slot.name) ? slot.name : this.groups.get(slot.first)?.[0] || slot.name);
      if (!bySlot.has(name)) bySlot.set(name, new Map());
      bySlot.get(name).set(step, value);
    }
    const other = Object.assign(Object.create(Inputs.prototype), { cells: new Map(this.cells), names: this.names.slice(), groups: new Map(this.groups) });
    let lines = this.lines.slice();
    while (lines.length && !lines[lines.length - 1].trim()) lines.pop();
    for (const [name, steps] of bySlot) {
      const cells = new Map(this.cells.get(name) || []), front = `${name},`, quoted = `"${name}"`;
      for (const [step, value] of steps) if (value === "") cells.delete(step); else cells.set(step, value);
      if (!other.cells.has(name)) {
        const first = changes.find(([slot]) => slot.name === name)[0].first;
        other.names.push(name);
        other.groups.set(first, [...(other.groups.get(first) || []), name]);
      }
      other.cells.set(name, cells);
      const isMine = (line, place) => place > 0 && (line.startsWith(front) || line.startsWith(quoted)) && rowOf(line); // what is no row stays to be mended
      const at = lines.findIndex(isMine), place = at < 0 ? lines.length : at;
      lines = [...lines.slice(0, place), ...rowsOf(name, cells), ...lines.slice(place).filter((line, more) => !isMine(line, place + more))];
    }
    other.text = `${lines.join("\n")}\n`;
    other.lines = [...lines, ""];
    return other;
  }
}

const rowsOf = (name, cells) => {
  const runs = [];
  for (const step of [...cells.keys()].sort((one, other) => one - other)) {
    const last = runs[runs.length - 1], value = cells.get(step);
    if (last && last[1] === step - 1 && last[2] === value) last[1] = step;
    else runs.push([step, step, value]);
  }
  return runs.map(([first, last, value]) => `${name},${first === last ? first : `${first}-${last}`},${value}`);
};

// The cells that differ between two texts, as rows of edits.
export const editsOf = (before, after, slots) => {
  const rows = ["batch,slot,step,value"], [one, other] = [new Inputs(before, slots), new Inputs(after, slots)];
  for (const name of new Set([...one.names, ...other.names])) {
    const [was, is] = [one.cells.get(name) || new Map(), other.cells.get(name) || new Map()], cells = new Map();
    for (const [step, value] of was) if (is.get(step) !== value) cells.set(step, is.get(step) ?? "");
    for (const [step, value] of is) if (was.get(step) !== value) cells.set(step, value);
    rows.push(...rowsOf(name, cells).map((row) => `1,${row}`));
  }
  return rows;
};

// What a cell's text means: a whole number in the slot's base unit, or why it is none. `unit` is that of a bare number.
export const meant = (text, slot, at, seconds, units, unit) => {
  const bare = text.trim().replace(/ /g, " ");
  if (bare === "") return { value: "" };
  const found = /^([-+]?(?:[0-9]+(?:\.[0-9]*)?|\.[0-9]+)(?:[eE][-+]?[0-9]+)?)\s*([A-Za-z][\w/-]*)?$/.exec(bare);
  if (!found) {
    if (/^[-+]?[0-9]{1,3}([, '][0-9]{3})+$/.test(bare)) return { says: `${bare}: write it without marks between thousands, as ${bare.replace(/[, ']/g, "")}` };
    if (/^[-+]?[0-9]+,[0-9]+$/.test(bare)) return { says: `${bare}: a decimal point is expected, as ${bare.replace(",", ".")}` };
    return { says: `${bare} isn't a number` };
  }
  const name = found[2] || (unit ? unit[0] : slot.unit), known = (units[slot.unit] || []).find((one) => one[0] === name);
  let value;
  if (name === slot.unit) {
    if (!/^[-+]?[0-9]{1,18}$/.test(found[1])) return { says: `${bare}: a whole number of ${slot.unit || "units"} is expected; with a unit, as ${found[1]} ${(units[slot.unit] || [[slot.unit]])[0][0]}, it is converted` };
    value = BigInt(found[1]);
  } else {
    if (!known) return { says: `${slot.name} measures ${slot.unit || "a plain number"}, and ${name} isn't a unit of that here: ${(units[slot.unit] || []).map((one) => one[0]).join(", ")}` };
    value = BigInt(Math.round(Number(found[1]) * known[1] * (known[2] ? seconds[at] : 1)));
  }
  if (value < BigInt(slot.low) || value > BigInt(slot.high)) return { says: `${slot.name} can't be ${value}: its bounds are ${slot.low} to ${slot.high} ${slot.unit}` };
  return { value: String(value) };
};
