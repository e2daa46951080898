// What is chosen, and what follows of it.
const state = { thing: D.objects[0], slot: D.slots[0], at: 0, run: 0, beside: "", from: 0, to: STEPS };
const say = (text) => { element("said").textContent = text; };
const isAny = (run, slot) => textsOf(run, slot).some((text) => text !== "");
const runsShown = () => (/^[0-9]+$/.test(state.beside) && Number(state.beside) !== state.run ? [state.run, Number(state.beside)] : [state.run]);
const groupsOf = (thing) => {
  const groups = new Map();
  for (const slot of thing.slots.filter((one) => runsShown().some((run) => isAny(run, one)))) {
    const unit = unitOf(slot);
    if (!groups.has(unit)) groups.set(unit, []);
    groups.get(unit).push(slot);
  }
  return groups;
};
const valueWords = (slot) => `${slot.short} ${rounded(shownOf(state.run, slot)[state.at])}`;

// ---- charts

const stepBy = { ArrowLeft: -1, ArrowRight: 1, PageUp: -10, PageDown: 10, Home: -Infinity, End: Infinity };
const sliderOf = (svg, unit, slots) => {
  const words = `Timestep ${state.at + 1}, ends ${D.stamps[state.at]}. ${slots.map(valueWords).join(", ")} ${unit}`;
  const options = { className: "plot", tabIndex: 0, role: "slider", "aria-label": `${state.thing.name}, ${unit}: timestep`, "aria-valuemin": 1 };
  const plot = make("div", { ...options, "aria-valuemax": STEPS, "aria-valuenow": state.at + 1, "aria-valuetext": words }, svg);
  plot.dataset.unit = unit;
  plot.addEventListener("keydown", (event) => {
    if (!(event.key in stepBy)) return;
    event.preventDefault();
    go(state.slot, state.at + 1 + stepBy[event.key]);
    document.querySelector(`.plot[data-unit="${CSS.escape(unit)}"]`)?.focus();
  });
  plot.addEventListener("click", (event) => {
    const box = svg.getBoundingClientRect(), x = ((event.clientX - box.left) * svg.viewBox.baseVal.width) / box.width;
    const share = (x - LEFT) / (svg.viewBox.baseVal.width - LEFT - RIGHT);
    go(slots.includes(state.slot) ? state.slot : slots[0], state.from + Math.floor(share * (state.to - state.from)) + 1);
  });
  return plot;
};
const legendOf = (slots, unit) => {
  const buttons = slots.map((slot, place) => {
    const words = `${slot.name} ${rounded(shownOf(state.run, slot)[state.at])} ${slot.unit ? unit : ""}`;
    const button = make("button", { type: "button", "aria-pressed": slot === state.slot }, swatchOf(colourOf(place), dashOf(place)), words);
    button.addEventListener("click", () => go(slot, state.at + 1));
    return button;
  });
  return make("div", { className: "legend", role: "group", "aria-label": `Slots in ${unit}` }, ...buttons);
};
const linesOf = (run, slots, more) =>
  slots.map((slot, place) => ({ list: shownOf(run, slot), name: slot.name, colour: colourOf(place), dash: dashOf(place), ...more }));
const stripsOf = (run, slots) => slots.map((slot) => ({ flags: flagsOf(run, slot), name: slot.name }));
const noteOf = (text) => make("p", { className: "note" }, text);

// Two runs side by side, on one scale, and their difference.
const pairOf = ([first, second], unit, slots, common, width) => {
  const lists = [first, second].flatMap((run) => slots.map((slot) => shownOf(run, slot)));
  const range = rangeOf(lists, common.from, common.to, common.isFromZero), half = width > 560 ? (width - 10) / 2 : width;
  const charts = [first, second].map((run) => {
    const chart = chartOf({ ...common, lines: linesOf(run, slots), strips: stripsOf(run, slots), width: half, range });
    return make("div", {}, noteOf(runName(run)), sliderOf(chart, unit, slots));
  });
  const apart = linesOf(first, slots).map((line, place) => {
    const other = shownOf(second, slots[place]);
    return { ...line, list: line.list.map((value, step) => other[step] - value) };
  });
  const chart = chartOf({ ...common, lines: apart, strips: [], width, isFromZero: true });
  const words = `The difference: ${runName(second)} less ${runName(first)}`;
  return [make("div", { className: "pair" }, ...charts), noteOf(words), sliderOf(chart, unit, slots)];
};
const panelOf = (unit, slots, width) => {
  const { run, from, to, at } = state, shown = runsShown(), isFromZero = unit !== unitOf({ unit: "mm" });
  const common = { from, to, now: at, isStepped: isFlow(slots[0]), isFromZero };
  const panel = make("div", { className: "panel" }, legendOf(slots, unit));
  if (shown.length === 2) {
    panel.append(...pairOf(shown, unit, slots, common, width));
    return panel;
  }
  const others = state.beside === "all" ? D.runs.map((_, one) => one).filter((one) => one !== run) : [];
  const lines = [...others.flatMap((one) => linesOf(one, slots, { thin: true })), ...linesOf(run, slots)];
  panel.append(sliderOf(chartOf({ ...common, lines, strips: stripsOf(run, slots), width }), unit, slots));
  return panel;
};
const keyOf = () => {
  const letters = new Set(runsShown().flatMap((run) => state.thing.slots.flatMap((slot) => [...new Set(flagsOf(run, slot))])));
  const flags = [...letters].filter((flag) => flag).map((flag) => (flag[0] === "R" ? flag : flag[0]));
  const words = { I: "I: an input", O: "O: an object" }, order = (flag) => (flag[0] === "R" ? Number(flag.slice(1)) : flag === "I" ? -2 : -1);
  const sorted = [...new Set(flags)].sort((one, other) => order(one) - order(other));
  const told = (flag) => words[flag] || `${flag}: ${D.rules[Number(flag.slice(1)) - 1]}`;
  const keys = sorted.map((flag) => make("span", {}, boxOf(flag), ` ${told(flag)}`));
  return make("div", { className: "key", role: "group", "aria-label": "Who set a value" }, ...keys);
};
const drawCharts = () => {
  const box = element("charts"), width = Math.max(260, Math.floor(box.clientWidth));
  const panels = [...groupsOf(state.thing)].map(([unit, slots]) => panelOf(unit, slots, width));
  const kind = `${state.thing.name} (${state.thing.kind}), ${runName(state.run)}`;
  box.replaceChildren(make("h2", {}, kind), ...(panels.length ? panels : [make("p", {}, "Nothing of it is known in this run.")]), keyOf());
};

// ---- all that is shown

const showHead = () => {
  const run = D.runs[state.run];
  element("ending").textContent = `${D.runs.length > 1 ? `${runName(state.run)}: ` : ""}${run.ending}`;
  element("ending").className = run.fault ? "fault" : "";
  element("doctor").replaceChildren(...run.lines.map((line) => make("li", {}, line.trim())));
};
const showChosen = () => {
  for (const [name, node] of NODES) {
    node.classList.toggle("chosen", name === state.thing.name);
    node.setAttribute("aria-pressed", name === state.thing.name);
  }
  const map = element("map"), box = map.getBoundingClientRect(), mine = NODES.get(state.thing.name)?.getBoundingClientRect();
  if (mine && (mine.top < box.top || mine.bottom > box.bottom)) map.scrollTop += mine.top - box.top - box.height / 3;
  element("search").value = state.thing.name;
  element("step").value = state.at + 1;
  element("run").value = state.run;
  element("beside").value = state.beside;
  element("from").value = beginOf(state.from).slice(0, 10);
  element("to").value = beginOf(state.to - 1).slice(0, 10);
};
const showRun = () => { showHead(); tellEffects(state.run); tellBook(state.run); };
const showObject = () => {
  showChosen();
  drawCharts();
  tellStatistics(state.run, state.thing, state.from, state.to);
  tellTable(runsShown(), state.thing, state.from, state.to, state.at, say);
  tellWhy(state.run, state.slot, state.at + 1);
  tellRequired(state.run);
};
const go = (slot, step) => {
  state.slot = slot;
  state.thing = slot.object;
  state.at = Math.max(0, Math.min(STEPS - 1, Math.trunc(step) - 1));
  if (state.at < state.from || state.at >= state.to) [state.from, state.to] = [0, STEPS];
  history.replaceState(null, "", `#slot=${encodeURIComponent(slot.name)}&step=${state.at + 1}`);
  showObject();
  const text = textsOf(state.run, slot)[state.at];
  say(`${cellWords(slot, state.at + 1)}: ${exact(text)} ${text ? slot.unit : ""}`);
};
const choose = (thing) => {
  const known = thing.slots.filter((slot) => isAny(state.run, slot));
  const slot = known.find((one) => one.short === state.slot.short) || known[0] || thing.slots[0];
  if (slot) go(slot, state.at + 1);
  else say(`${thing.name} has no slot.`);
};
const goByAddress = () => {
  const words = new URLSearchParams(location.hash.slice(1)), slot = SLOTS.get(words.get("slot"));
  if (slot) go(slot, Number(words.get("step")) || 1);
  return Boolean(slot);
};

// ---- what is asked of the reader

const NODES = new Map();
const readMap = () => {
  for (const node of document.querySelectorAll("#map g.node, #map button")) {
    const name = node.tagName === "BUTTON" ? node.textContent : node.querySelector("title").textContent, thing = OBJECTS.get(name);
    if (!thing) continue;
    NODES.set(name, node);
    node.setAttribute("role", "button");
    node.setAttribute("tabindex", 0);
    node.setAttribute("aria-label", `${name}, ${thing.kind}`);
    node.addEventListener("click", () => choose(thing));
    node.addEventListener("keydown", (event) => { if (event.key === "Enter" || event.key === " ") { event.preventDefault(); choose(thing); } });
  }
  for (const inner of document.querySelectorAll("#map svg [role=img], #map svg a")) inner.removeAttribute("xlink:title");
};
const fill = (id, rows) => element(id).replaceChildren(...rows.map(([value, text]) => make("option", { value }, text)));
const on = (id, what, act) => element(id).addEventListener(what, act);
const searched = () => {
  const text = element("search").value.trim().toLowerCase();
  const found = D.objects.find((one) => one.name.toLowerCase() === text) || D.objects.find((one) => text && one.name.toLowerCase().includes(text));
  if (found) choose(found);
  else say(`No object has ${element("search").value} in its name.`);
};
const stepAt = (day, isEnd) => {
  for (let at = 0; at < STEPS; at += 1) if (beginOf(at).slice(0, 10) > day || (!isEnd && beginOf(at).slice(0, 10) === day)) return at;
  return STEPS;
};
const setDates = () => {
  const [from, to] = [element("from").value, element("to").value];
  const first = from ? Math.min(stepAt(from, false), STEPS - 1) : 0, last = to ? stepAt(to, true) : STEPS;
  if (last <= first) { say("No timestep begins between these dates."); return; }
  [state.from, state.to] = [first, last];
  state.at = Math.max(first, Math.min(state.at, last - 1));
  showObject();
};
const nearer = () => {
  const width = Math.max(7, Math.floor((state.to - state.from) / 3)), from = Math.max(0, state.at - Math.floor(width / 2));
  [state.from, state.to] = [from, Math.min(STEPS, from + width)];
  showObject();
};
const listen = () => {
  on("search", "change", searched);
  on("search", "keydown", (event) => { if (event.key === "Enter") { event.preventDefault(); searched(); } });
  on("run", "change", () => { state.run = Number(element("run").value); showRun(); showObject(); });
  on("beside", "change", () => { state.beside = element("beside").value; showObject(); });
  on("from", "change", setDates);
  on("to", "change", setDates);
  on("nearer", "click", nearer);
  on("whole", "click", () => { [state.from, state.to] = [0, STEPS]; showObject(); });
  on("step", "change", () => go(state.slot, Number(element("step").value) || 1));
  Object.entries(D.units).forEach(([base, units], place) => {
    fill(`unit${place}`, units.map((unit, one) => [one, unit[0]]));
    element(`unit${place}`).value = D.chosen[base];
    element(`unit${place}`).parentElement.hidden = !D.slots.some((slot) => slot.unit === base);
    on(`unit${place}`, "change", () => { chosen[base] = units[Number(element(`unit${place}`).value)]; showObject(); });
  });
  addEventListener("hashchange", goByAddress);
  addEventListener("resize", () => { drawCharts(); tellRequired(state.run); });
  addEventListener("beforeprint", () => document.querySelectorAll("details").forEach((one) => { one.open = true; }));
};
const begin = () => {
  document.body.append(hatching());
  tellPolicy();
  if (!D.runs.length) return;
  document.body.classList.add("runs");
  readMap();
  fill("names", D.objects.map((thing) => [thing.name, thing.kind]));
  fill("run", D.runs.map((run, place) => [place, runName(place)]));
  fill("beside", [["", "nothing"], ["all", "all, over each other"], ...D.runs.map((run, place) => [place, runName(place)])]);
  element("step").max = STEPS;
  element("beside").parentElement.hidden = element("run").parentElement.hidden = D.runs.length === 1;
  listen();
  showRun();
  if (goByAddress()) return;
  const thing = D.objects.find((one) => /reservoir/.test(one.kind)) || D.objects[0];
  const rated = ["R", "O", ""].map((letter) => thing.slots.find((slot) => (flagsOf(0, slot)[0] || "").startsWith(letter)));
  state.slot = rated.find((slot) => slot) || state.slot;
  choose(thing);
};
begin();
