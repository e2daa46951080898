// What the program wrote of a run, read as it stands: values and flags of each slot are texts.
export const readRun = (text) => {
  const lines = text.split("\n"), run = { ending: "", fault: "", step: 0, slots: [], values: new Map(), flags: new Map(), closed: 0 };
  run.ending = lines[0].replace(/^# batch 0 /, "");
  run.fault = run.ending.startsWith("fault ") ? run.ending.slice(6) : "";
  run.step = Number((/\bstep ([0-9]+)/.exec(run.fault) || [])[1] || 0);
  run.thing = (/\bobject (\w+)/.exec(run.fault) || [])[1] || "";
  run.rule = Number((/\brule ([0-9]+)/.exec(run.fault) || [])[1] || 0);
  let at = 1;
  const table = (skip, into) => {
    const names = lines[at].split(",").slice(skip), columns = names.map(() => []);
    for (at += 1; at < lines.length && lines[at] && lines[at][0] !== "#"; at += 1) {
      const cells = lines[at].split(",");
      for (let place = 0; place < columns.length; place += 1) columns[place].push(cells[place + skip]);
    }
    names.forEach((name, place) => into.set(name, columns[place]));
    return names;
  };
  run.slots = table(2, run.values);
  run.closed = run.values.get(run.slots[0])?.length || 0;
  if (lines[at] === "# flags") { // read when they are asked for
    const begin = at + 1;
    let flags = null;
    Object.defineProperty(run, "flags", { enumerable: true, get: () => { if (!flags) { flags = new Map(); at = begin; table(1, flags); } return flags; } });
  }
  return run;
};

// Of each slot that differs between two runs: how many cells, the first, and where they are furthest apart.
export const differences = (before, after) => {
  const found = new Map();
  if (!before || !after) return found;
  for (const name of after.slots) {
    const [was, is] = [before.values.get(name), after.values.get(name)];
    if (!was || was === is) continue;
    const told = { cells: 0, first: -1, at: -1, most: 0n, missing: 0 };
    for (let at = 0; at < Math.max(was.length, is.length); at += 1) {
      if (was[at] === is[at]) continue;
      told.cells += 1;
      if (told.first < 0) told.first = at;
      if (!was[at] || !is[at]) { told.missing += 1; continue; }
      const apart = BigInt(is[at]) - BigInt(was[at]);
      if (told.at < 0 || (apart < 0n ? -apart : apart) > (told.most < 0n ? -told.most : told.most)) [told.most, told.at] = [apart, at];
    }
    if (told.cells) found.set(name, told);
  }
  return found;
};
