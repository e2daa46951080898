// Why a cell holds what it holds: all puts to it, who asked for them, and at what they looked.
const [WRITTEN, KEPT, DENIED, AGAIN, LATE] = [0, 1, 2, 3, 4];
const storyOf = (run) => once(`why${run}`, () => {
  const events = JSON.parse(element(`why${run}`).textContent), cells = new Map(), unknown = new Map();
  events.forEach((event, place) => {
    for (const put of event[3]) {
      const key = D.slots[put[1]].first * (STEPS + 1) + put[2];
      if (!cells.has(key)) cells.set(key, []);
      cells.get(key).push([place, put]);
    }
    if (!event[3].length) unknown.set(`${event[0]} ${event[1]}`, place);
  });
  return { events, cells, unknown };
});
const doerOf = (who) => (who < 0 ? D.rules[-who - 1] : `object ${D.objects[who].name}`);
const linkTo = (slot, step, text) => make("a", { href: `#slot=${encodeURIComponent(slot.name)}&step=${step}` }, text);
const lookOf = ([place, step, value, flag]) => {
  const slot = D.slots[place], isFlag = /^[IRO][0-9]+$/.test(flag);
  const words = ` = ${exact(value)} ${value === null ? "" : slot.unit} (${isFlag ? `${flag}, ${whoOf(flag)}` : flag})`;
  const name = `${slot.name} ${step}`;
  return make("li", {}, step >= 1 && step <= STEPS ? linkTo(slot, step, name) : name, words);
};
const fateOf = (put, isLast) => {
  const [fate, place, , value, flag, was, whose] = put, unit = D.slots[place].unit;
  const amount = `${exact(value)} ${unit}`.trim(), held = whose ? `${exact(was)} of ${whoOf(whose)} (${whose})` : "";
  if (fate === KEPT) return [`asked for ${amount} (${flag}), which was there already`, held ? `: ${held}` : ""].join("");
  if (fate === DENIED) return `asked for ${amount} (${flag}) and was denied: the cell has ${held}`;
  if (fate === AGAIN) return `asked for ${amount} (${flag}), and set this cell again in the same firing`;
  return `set ${amount} (${flag})${isLast ? ", which holds" : ""}${held ? `${isLast ? ";" : ", and"} it took the place of ${held}` : ""}`;
};
const givenOf = (slot, flags, step) => {
  if (flags[step - 1] === "I0") return "It is an input.";
  return flags[step - 1] ? "Nobody set it in this run." : "Nobody set it, so it is unknown.";
};
const unknownOf = (run, slot, step) => {
  const story = storyOf(run), list = [];
  D.sets.forEach((sets, rule) => {
    const place = sets.some((one) => D.slots[one].first === slot.first) ? story.unknown.get(`${-rule - 1} ${step}`) : undefined;
    if (place === undefined) return;
    const looks = story.events[place][2], last = looks[looks.length - 1];
    const why = last && last[2] === null ? make("ul", {}, lookOf(last)) : "";
    list.push(make("li", {}, `${D.rules[rule]} ended unknown, and put nothing. It lacked`, why || " a date that is outside the run"));
  });
  return list;
};
const putsOf = (run, slot, step) => {
  const story = storyOf(run), puts = story.cells.get(slot.first * (STEPS + 1) + step) || [];
  const last = puts.map(([, put]) => put[0]).lastIndexOf(WRITTEN);
  const items = puts.map(([place, put], at) => {
    const [who, when, looks] = story.events[place], other = D.slots[put[1]].name;
    const as = (other === slot.name ? "" : `, as ${other}`) + (when === step ? "" : `, in timestep ${when}`);
    const item = make("li", {}, make("strong", {}, doerOf(who)), ` ${fateOf(put, at === last)}${as}. It looked at`);
    item.append(looks.length ? make("ul", {}, ...looks.map(lookOf)) : " nothing");
    return item;
  });
  return items.concat(unknownOf(run, slot, step));
};
const tellWhy = (run, slot, step) => {
  const box = element("why"), info = D.runs[run], text = textsOf(run, slot)[step - 1], flags = flagsOf(run, slot);
  box.replaceChildren(make("h2", {}, step > info.closed ? `Why ${slot.name}` : `Why ${slot.name} is ${exact(text)} ${text ? slot.unit : ""}`));
  const when = `Timestep ${step}, from ${beginOf(step - 1)} to ${D.stamps[step - 1]}, ${runName(run)}.`;
  box.append(make("p", { className: "note" }, when + (step > info.closed ? " It was not completed." : ` Flag ${flags[step - 1] || "none"}: ${whoOf(flags[step - 1])}.`)));
  const [first, last] = info.why;
  if (step < first || step > last) {
    const which = last < first ? "for no timestep of this run" : `only for the timesteps ${first} to ${last}`;
    const other = `${which}, since the page would be too long with all. Give tools/report --why ${step} for others, or use tools/why for one cell.`;
    box.append(make("p", {}, `The page says who set each value ${other}`));
    return;
  }
  const items = putsOf(run, slot, step);
  box.append(items.length ? make("ol", {}, ...items) : make("p", {}, givenOf(slot, flags, step)));
  if (D.asked) box.append(make("p", { className: "note" }, D.asked));
};
