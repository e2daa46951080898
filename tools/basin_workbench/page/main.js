// The workbench: texts that change, the run that follows, and what is shown of it.
import { ask, Gone, isStale, post, Refused } from "./api.js";
import { Editor } from "./editor.js";
import { formOf } from "./form.js";
import { Sheet } from "./grid.js";
import { editsOf, Inputs, meant, rowOf } from "./inputs.js";
import { Map_ } from "./map.js";
import { Plots } from "./plots.js";
import { differences, readRun } from "./results.js";

const WAIT = 150, SAME = 900; // milliseconds: of a text that is typed, and within which typing is one change
const MOST = 200; // changes that can be undone
const on = (id, what, act) => element(id).addEventListener(what, act);
const state = { thing: null, slot: null, at: 0, from: 0, to: 0, view: "over", tab: "results", side: "why" };
const work = { files: {}, texts: {}, kinds: {}, undo: [], redo: [], moment: 0 };
const seen = { shape: null, shapeText: "", last: null, good: null, previous: null, saved: null, pinned: null, began: 0 };
const parts = () => Object.keys(work.files);
const dirty = () => parts().filter((part) => work.texts[part] !== work.files[part].text);
const say = (text) => { element("said").textContent = text; };
const option = (value, text) => make("option", { value }, text);

// ---- banners: what has to be seen above all

const banners = new Map();
const banner = (name, parts, isFault = false) => {
  if (parts) banners.set(name, make("div", { className: `banner${isFault ? " fault" : ""}`, role: isFault ? "alert" : "status" }, ...parts));
  else banners.delete(name);
  element("banners").replaceChildren(...banners.values());
};
const buttonOf = (text, act, look = "") => {
  const button = make("button", { type: "button", className: look }, text);
  button.addEventListener("click", act);
  return button;
};
const gone = () => banner("gone", [
  make("p", {}, "The workbench's server has ended. Your changes are still in this page, and all but the last one in its draft: start tools/workbench again and open the draft, or keep your texts as files."),
  ...dirty().map((part) => buttonOf(`Keep ${work.files[part].name}`, () => download(part))),
], true);
const download = (part) => {
  const link = make("a", { href: URL.createObjectURL(new Blob([work.texts[part]], { type: "text/plain" })), download: work.files[part].name });
  link.click();
  setTimeout(() => URL.revokeObjectURL(link.href), 1000);
};
const failed = (error) => {
  if (isStale(error)) return;
  if (error instanceof Gone) gone();
  else say(error.message);
};

// ---- changes, undone and done again

const change = (texts, label, { isTyped = false, began = performance.now() } = {}) => {
  if (parts().every((part) => texts[part] === work.texts[part])) return;
  const now = performance.now(), last = work.undo[work.undo.length - 1];
  if (!(isTyped && last?.label === label && last.isTyped && now - last.when < SAME)) work.undo.push({ texts: { ...work.texts }, label, when: now, isTyped });
  else last.when = now;
  if (work.undo.length > MOST) work.undo.shift();
  work.redo = [];
  take(texts, began, isTyped);
};
const take = (texts, began, isTyped = false) => {
  work.texts = { ...texts };
  work.moment = Math.max(Date.now(), work.moment + 1);
  seen.began = began;
  showHead();
  if (isTyped) { clearTimeout(take.timer); take.timer = setTimeout(check, WAIT); } else run();
};
const back = (from, to) => {
  if (!from.length) return;
  const one = from.pop();
  to.push({ ...one, texts: { ...work.texts } });
  work.wrong.clear();
  count("inputs", 0);
  element("wrongcells").replaceChildren();
  take(one.texts, performance.now());
  say(`${from === work.undo ? "Undone" : "Done again"}: ${one.label}`);
  showTexts();
};
const undo = () => back(work.undo, work.redo), redo = () => back(work.redo, work.undo);
work.wrong = new Map(); // cells whose text isn't accepted: by slot and timestep, text and why

// ---- runs

const check = async () => {
  if (!("policy" in work.texts)) { run(); return; }
  const texts = work.texts;
  try {
    const told = await ask("check", { texts, keep: work.moment }, "run");
    if (texts !== work.texts) return;
    showFindings(told);
    if (told.status === 0) run();
    else showEnding(told);
  } catch (error) { failed(error); }
};
const run = async () => {
  const texts = { ...work.texts }, began = seen.began;
  element("ending").classList.add("busy");
  try {
    const answer = await post("run", { texts, keep: work.moment, shape: texts.model !== seen.shapeText }, "run");
    const body = await answer.text(), cut = body.indexOf("\n"), told = JSON.parse(body.slice(0, cut));
    took(told, texts, cut + 1 < body.length ? readRun(body.slice(cut + 1)) : null, began);
  } catch (error) { element("ending").classList.remove("busy"); failed(error); }
};
const took = (told, texts, result, began) => {
  if (told.shape) { seen.shapeText = texts.model; seen.nextShape = told.shape; map(texts.model); }
  const shape = seen.nextShape;
  seen.last = { told, texts, result, shape, rules: told.rules || [], sets: told.sets || [], name: "now" };
  banner("gone", null);
  if (told.status === 0 || told.status === 1) {
    if (!result.fault || !seen.good || seen.isFaultShown) {
      if (seen.good && !seen.good.result.fault) seen.previous = seen.good;
      seen.good = seen.last;
      if (!result.fault) seen.isFaultShown = false;
    }
    if (!seen.saved || (!dirty().length && !result.fault)) seen.saved = seen.last;
    if (told.status === 0) banner("fault", null);
    else faulted();
    banner("refused", null);
    shown();
  } else refused(told);
  showFindings(told.status === 0 || told.status === 1 ? null : told);
  if (state.tab === "rules" && told.status <= 1) { clearTimeout(remarks.timer); remarks.timer = setTimeout(remarks, 600); }
  showEnding(told, result);
  requestAnimationFrame(() => {
    const total = performance.now() - began;
    window.lastTook = { total, program: told.took, count: (window.lastTook?.count || 0) + 1 };
    element("took").textContent = `shown ${Math.round(total)} ms after the change, of which the program ${Math.round(told.took)} ms`;
  });
};
const showEnding = (told, result) => {
  const box = element("ending");
  box.className = told.status ? "fault" : "";
  box.textContent = told.status === 0 ? `settled: ${grouped(STEPS)} timesteps` : result?.fault ? `fault in timestep ${result.step}` : told.where ? `refused: ${{ model: "the model", policy: "the rules", inputs: "the inputs" }[told.where]}` : told.refusal || `status ${told.status}`;
};
const refused = (told) => {
  const where = { model: "model", policy: "rules", inputs: "inputs" }[told.where], first = told.findings[0];
  const go = buttonOf("Go there", () => { tab(where); if (where !== "inputs") (where === "model" ? modelText : rulesText)?.go(first?.line || 1, first?.from || 0); });
  banner("refused", [make("p", {}, `${first ? `${first.says}` : told.refusal}${seen.good ? " The table of the last run that was accepted is shown." : ""}`), ...(where ? [go] : []), buttonOf("Undo", undo)], true);
};
const faulted = async () => {
  const { result, texts, rules } = seen.last, isKept = seen.good !== seen.last;
  const day = beginOf(Math.min(result.step, STEPS) - 1).replace("T00:00", "").replace("T", " ");
  const rule = result.rule ? ` by rule ${result.rule} “${rules[result.rule - 1] || ""}”` : "", thing = result.thing ? ` at ${result.thing}` : "";
  const slot = (/\bslot (\S+)/.exec(result.fault) || [])[1], list = make("ul", {});
  const put = (lines) => list.replaceChildren(...lines.map((line) => make("li", {}, line.trim())));
  const words = make("p", {}, make("strong", {}, `The run ends in timestep ${result.step}, ${day}${thing}${rule}: `), result.fault.replace(/ object \w+/, "").replace(/ step [0-9]+/, ""), `. ${isKept ? "What is shown is the last run that settled." : "What is shown ends there."}`);
  const more = make("details", { open: seen.isToldOpen || false }, make("summary", {}, "What led there"), list);
  more.addEventListener("toggle", () => { seen.isToldOpen = more.open; });
  const show = isKept ? [buttonOf("Show the table up to the fault", () => { seen.isFaultShown = true; seen.previous = seen.good; seen.good = seen.last; shown(); faulted(); go(D.bySlot.get(slot) || state.slot, Math.max(1, result.step - 1)); })] : [];
  banner("fault", [words, ...show, buttonOf("Undo", undo), more], true);
  try { put((await ask("doctor", { texts }, "doctor")).lines); } catch (error) { failed(error); }
};
const map = async (model) => {
  try {
    const { svg } = await ask("map", { model }, "map");
    if (svg) picture.show(svg, seen.nextShape.objects); else picture.list(seen.nextShape.objects);
    mark();
  } catch (error) {
    if (error instanceof Refused) { picture.list(seen.nextShape.objects); mark(); } else failed(error);
  }
};

// ---- what is shown of a run

const baseOf = () => {
  const base = seen[element("base").value];
  return base && base !== seen.good ? base : null;
};
const shown = () => {
  const { shape, result, rules, sets } = seen.good, base = baseOf(), isNew = !D || D.shape !== shape;
  kept = {};
  delete held.why0;
  if (isNew) {
    const was = { thing: state.thing?.name, slot: state.slot?.short };
    D = { ...shape, shape, units: shape.units };
    D.objects = shape.objects.map((one) => ({ ...one, slots: [] }));
    D.slots = shape.slots.map((one, place) => ({ ...one, place, object: D.objects[one.object], short: one.name.split(".")[1] }));
    D.slots.forEach((slot) => slot.object.slots.push(slot));
    D.bySlot = new Map(D.slots.map((slot) => [slot.name, slot]));
    D.byName = new Map(D.objects.map((thing) => [thing.name, thing]));
    if (STEPS !== D.stamps.length) [STEPS, state.from, state.to] = [D.stamps.length, 0, D.stamps.length];
    state.thing = D.byName.get(state.wanted) || D.byName.get(was.thing) || D.objects.find((one) => /reservoir/.test(one.kind)) || D.objects[0];
    state.wanted = null;
    state.slot = state.thing.slots.find((slot) => slot.short === was.slot) || state.thing.slots[0] || D.slots[0];
    element("objects").replaceChildren(...D.objects.map((one) => option(one.name, one.kind)));
    units();
  }
  const asRun = (one, name) => ({ ...one.result, name, why: [1, STEPS], batch: 0 });
  const names = { saved: "the files as saved", previous: "before the last change", pinned: "the pinned run" };
  D.rules = rules;
  D.sets = sets;
  D.runs = [asRun(seen.good, base ? "now" : "the run"), ...(base ? [asRun(base, names[element("base").value])] : [])];
  D.differs = base ? differences(base.result, result) : new Map();
  state.at = Math.min(state.at, STEPS - 1);
  showAll(isNew);
};
const units = () => {
  Object.entries(D.units).forEach(([base, list], place) => {
    const most = Math.max(...D.slots.filter((slot) => slot.unit === base).flatMap((slot) => (seen.good.result.values.get(slot.name) || []).map(Number)), 0);
    const first = list[0], size = first[1] * (first[2] ? D.seconds[0] : 1);
    if (!chosen[base]) chosen[base] = most >= size ? first : list.find((one) => one[0] === base);
    const select = element(`unit${place}`);
    select.replaceChildren(...list.map((one, at) => option(at, one[0])));
    select.value = list.findIndex((one) => one[0] === chosen[base][0]);
    chosen[base] = list[Number(select.value)];
    select.parentElement.hidden = !D.slots.some((slot) => slot.unit === base);
  });
};
const counts = () => {
  const found = new Map();
  for (const [name, { cells }] of D.differs) { const thing = name.split(".")[0]; found.set(thing, (found.get(thing) || 0) + cells); }
  return found;
};
const mark = () => picture.mark({ chosen: state.thing?.name, first: linking.from, broken: seen.last?.result?.thing, differs: D?.differs ? counts() : new Map() });
const showAll = (isNew = false) => {
  mark();
  showChosen();
  plots.draw();
  table();
  inputsGrid();
  if (isNew || state.tab === "model") showForm();
  showSide();
  showHead();
};
const showChosen = () => {
  element("search").value = state.thing.name;
  element("chosen").replaceChildren(make("b", {}, state.thing.name), ` ${state.thing.kind} · timestep ${state.at + 1}, ${beginOf(state.at).replace("T00:00", "").replace("T", " ")}`);
};
const go = (slot, step) => {
  if (!slot) return;
  const isOther = slot.object !== state.thing;
  state.slot = slot;
  state.thing = slot.object;
  state.at = Math.max(0, Math.min(STEPS - 1, step - 1));
  if (state.at < state.from || state.at >= state.to) [state.from, state.to] = [0, STEPS];
  mark();
  showChosen();
  plots.draw();
  table(true);
  if (isOther) { inputsGrid(); showForm(); }
  if (state.side === "why") why();
  const text = textsOf(0, slot)[state.at];
  say(`${slot.name} at timestep ${state.at + 1}: ${exact(text)} ${text ? slot.unit : ""}`);
};
const choose = (name) => {
  if (linking.isOn) { linked(name); return; }
  const thing = D.byName.get(name);
  if (!thing) return;
  const slot = thing.slots.find((one) => one.short === state.slot?.short) || thing.slots.find((one) => textsOf(0, one)[state.at]) || thing.slots[0];
  if (slot) go(slot, state.at + 1);
};

// ---- the table

const results = new Sheet(element("table"), {
  label: "The table of the object",
  side: (row) => [String(row + 1), beginOf(row).replace("T00:00", "").replace("T", " ")],
  isNow: (row) => row === state.at,
  textOf: (row, column) => { const one = results.columns[column]; return one.textAt(row); },
  cell: (row, column) => results.columns[column].cellAt(row),
  onChoose: (row, column) => { if (results.columns[column]) go(results.columns[column].slot, row + 1); },
});
const table = (isChosen = false) => {
  const columns = [];
  for (const slot of state.thing.slots) {
    const is = textsOf(0, slot), flags = flagsOf(0, slot), was = D.runs.length > 1 && D.differs.has(slot.name) ? textsOf(1, slot) : null;
    const look = (row) => (is[row] === undefined || is[row] === "" ? "no" : was && was[row] !== is[row] ? "changed" : "");
    const cellAt = (row) => ({ text: is[row] ? grouped(is[row]) : "–", look: look(row), title: `${flags[row] || ""} ${whoOf(flags[row])}` });
    columns.push({ slot, head: slot.short, sub: slot.unit || "number", cellAt, textAt: (row) => is[row] || "" });
    if (was) {
      const apart = (row) => (is[row] && was[row] ? String(BigInt(is[row]) - BigInt(was[row])) : "");
      columns.push({ slot, head: "was", sub: slot.short, textAt: (row) => was[row] || "", cellAt: (row) => ({ text: was[row] ? grouped(was[row]) : "–", look: "was" }) });
      columns.push({ slot, head: "differs", sub: slot.short, textAt: apart, cellAt: (row) => { const by = apart(row); return { text: by && by !== "0" ? `${by[0] === "-" ? "" : "+"}${grouped(by)}` : "", look: by && by !== "0" ? "changed" : "was" }; } });
    }
  }
  const place = columns.findIndex((one) => one.slot === state.slot), now = results.columns[results.at[1]];
  results.show(columns, STEPS);
  if (isChosen || results.at[0] !== state.at) results.go([state.at, now?.slot === state.slot && results.at[1] < columns.length ? results.at[1] : Math.max(0, place)], false, true);
};

// ---- the grid of inputs

const parsed = () => {
  if (work.parsed?.text !== work.texts.inputs || work.parsed.shape !== D.shape) { work.parsed = new Inputs(work.texts.inputs, D.bySlot); work.parsed.shape = D.shape; }
  return work.parsed;
};
const brokenAt = (given, step) => work.broken?.find((one) => one.name === given.name && one.first <= step && step <= one.last)?.says;
const inUnits = () => element("inunits").checked;
const key = (slot, step) => `${slot.name} ${step}`;
const shownInput = (slot, step, value) => {
  const unit = chosen[slot.unit];
  if (!inUnits() || !unit || !/^-?[0-9]+$/.test(value)) return value;
  return String(Number((Number(value) / (unit[1] * (unit[2] ? D.seconds[step - 1] : 1))).toPrecision(7)));
};
const grid = new Sheet(element("grid"), {
  label: "Inputs",
  side: (row) => [String(row + 1), beginOf(row).replace("T00:00", "").replace("T", " ")],
  isNow: (row) => row === state.at,
  textOf: (row, column) => {
    const { slot } = grid.columns[column], wrong = work.wrong.get(key(slot, row + 1)), given = parsed().given(slot, row + 1);
    return wrong ? wrong.text : given ? shownInput(slot, row + 1, given.value) : "";
  },
  cell: (row, column) => {
    const { slot } = grid.columns[column], wrong = work.wrong.get(key(slot, row + 1));
    if (wrong) return { text: wrong.text, look: "edit wrong", title: wrong.says };
    const given = parsed().given(slot, row + 1);
    if (given) {
      const isNew = work.savedInputs && (work.savedInputs.given(slot, row + 1)?.value ?? "") !== given.value;
      const broken = brokenAt(given, row + 1);
      return { text: inUnits() ? shownInput(slot, row + 1, given.value) : grouped(given.value), look: `edit${broken ? " wrong" : isNew ? " changed" : ""}`, title: broken || (given.name === slot.name ? null : `given as ${given.name}`) };
    }
    const solved = textsOf(0, slot)[row], flag = flagsOf(0, slot)[row];
    return { text: solved ? (inUnits() ? shownInput(slot, row + 1, solved) : grouped(solved)) : "", look: "edit solved", title: solved ? `not given: set by ${whoOf(flag)} (${flag})` : "not given, and unknown" };
  },
  onChoose: (row, column) => { const one = grid.columns[column]; if (one && one.slot.object === state.thing) { state.at = row; state.slot = one.slot; showChosen(); } else if (one) { state.at = row; showChosen(); } },
  onPut: (cells) => putCells(cells),
});
const inputsGrid = () => {
  if (state.tab !== "inputs") return;
  const isAll = element("which").value === "given", names = new Set(parsed().names);
  const slots = D.slots.filter((slot) => slot.settable && (isAll ? names.has(slot.name) : slot.object === state.thing));
  work.savedInputs = work.files.inputs.text === work.texts.inputs ? null : (work.savedInputs?.text === work.files.inputs.text ? work.savedInputs : new Inputs(work.files.inputs.text, D.bySlot));
  const unitHead = (slot) => (inUnits() ? unitOf(slot) : slot.unit || "number");
  grid.show(slots.map((slot) => ({ slot, head: isAll ? slot.name : slot.short, sub: unitHead(slot), isEdited: true })), STEPS);
  const list = [...work.wrong].map(([name, { text, says, slot, step }]) => make("li", { className: "fault" }, buttonOf(`${slot.name}, timestep ${step} (${beginOf(step - 1).slice(0, 10)}): ${says}`, () => toCell(slot, step))));
  element("wrongcells").replaceChildren(...list.slice(0, 50), ...(list.length > 50 ? [make("li", {}, `and ${list.length - 50} more`)] : []));
  count("inputs", work.wrong.size + (work.broken?.length || 0));
};
const toCell = (slot, step) => {
  go(D.bySlot.get(slot.name), step);
  inputsGrid();
  const column = grid.columns.findIndex((one) => one.slot.name === slot.name);
  if (column >= 0) grid.go([step - 1, column], false, true);
  grid.box.focus();
};
const putCells = (cells) => {
  const began = performance.now(), changes = [];
  for (const [row, column, text] of cells) {
    const { slot } = grid.columns[column], step = row + 1;
    const told = meant(text, slot, row, D.seconds, D.units, inUnits() ? chosen[slot.unit] : null);
    if (told.says) { work.wrong.set(key(slot, step), { text, says: told.says, slot, step }); continue; }
    work.wrong.delete(key(slot, step));
    if ((parsed().given(slot, step)?.value ?? "") !== told.value) changes.push([slot, step, told.value]);
  }
  if (changes.length) {
    const [slot, step] = changes[0], label = changes.length === 1 ? `${slot.name} at timestep ${step}` : `${grouped(changes.length)} cells of inputs`;
    work.parsed = Object.assign(parsed().changed(changes), { shape: D.shape });
    change({ ...work.texts, inputs: work.parsed.text }, label, { began });
    say(label);
  } else if (cells.length && !work.wrong.size) say("Nothing changes.");
  inputsGrid();
};

// ---- rules and the model as texts

let rulesText = null, modelText = null;
const showTexts = () => {
  if (rulesText) rulesText.show(work.texts.policy);
  modelText.show(work.texts.model);
};
const listOf = (findings, editor) => findings.slice(0, 60).map((one) => make("li", { className: one.sort }, buttonOf(`Line ${one.line}: ${one.says}`, () => editor.go(one.line, one.from))));
const count = (name, many) => {
  const node = element(`tab-${name}`);
  node.querySelector(".count")?.remove();
  if (many) node.append(make("span", { className: "count bad", "aria-label": `${many} findings` }, String(many)));
};
const showFindings = (told) => {
  const where = told?.where, mine = (name) => (where === name ? told.findings : []);
  if (rulesText && (where === "policy" || told?.status === 0)) {
    const found = mine("policy");
    rulesText.remark(found);
    element("rulesfindings").replaceChildren(...listOf(found, rulesText));
    count("rules", mine("policy").length);
  }
  if (told === null && rulesText) count("rules", 0);
  modelText.remark(mine("model"));
  element("modelfindings").replaceChildren(...listOf(mine("model"), modelText));
  count("model", mine("model").length);
  const lines = mine("inputs").length ? work.texts.inputs.split("\n") : [];
  work.broken = mine("inputs").map((one) => ({ ...rowOf(lines[one.line - 1] || ""), says: one.says }));
  if (work.broken.length || (told && state.tab === "inputs")) inputsGrid();
};
const remarks = async () => { // what to look at in rules that are accepted
  const told = seen.last?.told;
  if (!rulesText || !told || told.status > 1) return;
  try {
    const texts = work.texts, { remarks: found } = await ask("remarks", { texts }, "remarks");
    if (texts.policy !== work.texts.policy) return;
    rulesText.remark(found);
    element("rulesfindings").replaceChildren(...listOf(found, rulesText));
  } catch (error) { failed(error); }
};

// ---- the model

const changeModel = async (act) => {
  const began = performance.now();
  try {
    const { texts, label } = await ask("change", { texts: work.texts, change: act });
    if (act.act === "rename" && state.thing?.name === act.object) state.wanted = act.name;
    if (act.act === "add") state.wanted = act.name;
    change(texts, label, { began });
    showTexts();
    say(label);
    return "";
  } catch (error) {
    if (!(error instanceof Refused)) { failed(error); return error.message; }
    say(error.message);
    return error.message;
  }
};
const runKeys = () => {
  const found = /^\[run\]([\s\S]*?)(?=^\[|(?![\s\S]))/m.exec(work.texts.model)?.[1] || "";
  const of = (name) => (new RegExp(`^\\s*${name}\\s*=\\s*"?([^"#\\n]*?)"?\\s*(?:#.*)?$`, "m").exec(found) || [])[1]?.replace(/_/g, "");
  return { start: of("start"), step: of("step"), steps: of("steps") };
};
const showForm = () => {
  const isIn = element("form").contains(document.activeElement) && document.activeElement.name;
  const mine = D.byName.get(state.thing.name);
  element("form").replaceChildren(...formOf(mine, { kinds: work.kinds, links: D.links, run: runKeys(), change: changeModel, dialogs }));
  if (isIn) element("form").querySelector(`[name="${isIn}"]`)?.focus();
  const line = work.texts.model.split("\n").findIndex((one) => new RegExp(`^\\s*name\\s*=\\s*"${state.thing.name}"`).test(one));
  if (line >= 0) modelText.go(line + 1, 0, false);
};
const dialog = (title, fields, word, act, isDanger = false) => {
  const box = element("dialog"), error = make("p", { className: "error", role: "alert" });
  const form = make("form", { method: "dialog" }, make("h2", {}, title), ...fields, error,
    make("div", { className: "bar" }, buttonOf("Cancel", () => box.close()), make("button", { type: "submit", className: isDanger ? "danger" : "main" }, word)));
  form.addEventListener("submit", async (event) => {
    event.preventDefault();
    const wrong = await act();
    if (wrong) error.textContent = wrong; else box.close();
  });
  box.replaceChildren(form);
  box.showModal();
  form.querySelector("input, select")?.focus();
};
const field = (text, input) => make("label", {}, text, input);
const dialogs = {
  rename: (thing) => {
    const input = make("input", { value: thing.name, required: true });
    dialog(`Rename ${thing.name}`, [field("New name, also in links, rules and inputs", input)], "Rename", () => changeModel({ act: "rename", object: thing.name, name: input.value.trim() }));
    input.select();
  },
  remove: (thing) => dialog(`Delete ${thing.name}?`, [make("p", {}, "Its links, bounds and inputs go with it. Rules that name it stay, and have to be changed. Undo brings it back.")], "Delete", () => changeModel({ act: "delete", object: thing.name }), true),
  add: () => {
    const name = make("input", { required: true, autocomplete: "off" }), kind = make("select", {}, ...Object.keys(work.kinds).map((one) => option(one, one.replace(/_/g, " "))));
    kind.value = "reservoir";
    dialog("Add an object", [field("Name", name), field("Kind", kind)], "Add", async () => {
      const wrong = await changeModel({ act: "add", name: name.value.trim(), kind: kind.value });
      if (!wrong && state.tab !== "model") tab("model");
      return wrong;
    });
  },
};
const linking = { isOn: false, from: null };
const link = (isOn) => {
  linking.isOn = isOn;
  linking.from = null;
  element("link").setAttribute("aria-pressed", isOn);
  element("hint").className = isOn ? "note on" : "note";
  element("hint").textContent = isOn ? "Choose the object that the water leaves. Escape ends it." : "";
  mark();
};
const linked = (name) => {
  if (!linking.from) {
    linking.from = name;
    element("hint").textContent = `${name} ·· now the object that the water goes to.`;
    mark();
    return;
  }
  if (name === linking.from) return;
  const [one, other] = [D.byName.get(linking.from), D.byName.get(name)], inLink = new Set(D.links.flat());
  link(false);
  const options = (thing, way) => thing.slots.slice().sort((a, b) => rank(a, way) - rank(b, way)).map((slot) => option(slot.name, `${slot.name} [${slot.unit || "number"}]${inLink.has(slot.name) ? ", linked" : ""}`));
  const rank = (slot, way) => (slot.way === way ? 0 : 2) + (inLink.has(slot.name) ? 1 : 0) + (slot.settable ? 0 : 0.5);
  const [from, to] = [make("select", {}, ...options(one, "out")), make("select", {}, ...options(other, "in"))];
  dialog(`Link ${one.name} and ${other.name}`, [field("This slot", from), field("carries the same value as", to)], "Link", () => changeModel({ act: "link", from: from.value, to: to.value }));
};

// ---- beside: why, changes, what rules did

let whyTimer = 0;
const why = () => {
  clearTimeout(whyTimer);
  if (!state.slot || !D) return;
  const step = state.at + 1, box = element("why");
  if (step > D.runs[0].closed + 1) { box.replaceChildren(make("p", {}, "The run ended before this timestep.")); return; }
  whyTimer = setTimeout(async () => {
    try {
      if (held.whyStep !== step || held.whyRun !== seen.good) {
        const text = await (await post("why", { texts: seen.good.texts, step }, "why")).text();
        [held.why0, held.whyStep, held.whyRun] = [{ textContent: text }, step, seen.good];
        delete kept.why0;
      }
      tellWhy(0, state.slot, step);
      box.scrollTop = 0;
    } catch (error) { failed(error); }
  }, 120);
};
const slotButton = (name, act) => {
  const button = buttonOf("", act), [thing, slot] = name.split(".");
  button.append(`${thing}.`, make("wbr"), slot);
  return button;
};
const changesOf = async () => {
  const box = element("changes"), base = baseOf();
  if (!base) { box.replaceChildren(make("p", { className: "note" }, "Nothing was changed since the run with which this one is compared.")); return; }
  const total = [...D.differs.values()].reduce((sum, one) => sum + one.cells, 0);
  const rows = [...D.differs].map(([name, one]) => make("tr", {},
    make("td", {}, slotButton(name, () => go(D.bySlot.get(name), (one.at < 0 ? one.first : one.at) + 1))),
    make("td", {}, grouped(one.cells)), make("td", {}, beginOf(one.first).replace("T00:00", "")), make("td", {}, one.at < 0 ? "–" : `${one.most > 0n ? "+" : ""}${grouped(one.most)}`)));
  const head = make("tr", {}, ...["slot", "cells", "first on", "greatest"].map((one) => make("th", { scope: "col" }, one)));
  const felt = make("p", { className: "note" });
  box.replaceChildren(make("h2", {}, `${grouped(total)} cells of ${grouped(D.differs.size)} slots differ from ${runName(1)}`),
    felt, rows.length ? make("table", { className: "list" }, make("thead", {}, head), make("tbody", {}, ...rows)) : make("p", {}, "No number differs."));
  if (base.texts.model !== seen.good.texts.model || base.texts.policy !== seen.good.texts.policy) return;
  const edits = editsOf(base.texts.inputs, seen.good.texts.inputs, D.bySlot);
  if (edits.length < 2 || edits.length > 10000) return;
  try {
    const { reran } = await ask("reran", { texts: base.texts, edits: `${edits.join("\n")}\n` }, "reran");
    const steps = reran.trim() === "none" ? [] : reran.trim().split(" ");
    felt.textContent = steps.length ? `The change is felt in ${grouped(steps.length)} of ${grouped(STEPS)} timesteps, from ${steps[0]} to ${steps[steps.length - 1]}${steps.length < STEPS ? ": the others are proved to be as before" : ""} (--reuse).` : "No timestep feels the change (--reuse).";
  } catch (error) { failed(error); }
};
const did = async () => {
  const box = element("did");
  if (!("policy" in work.texts)) { box.replaceChildren(make("p", {}, "There are no rules.")); return; }
  box.replaceChildren(make("p", { className: "note" }, "The run is gone through."));
  try {
    const { headings, rows, lines } = await ask("effects", { texts: seen.good.texts }, "effects");
    const list = rows.map((row) => make("li", {}, make("strong", {}, row[0]), " sets ", buttonOf(row[1], () => choose(row[1].split(".")[0]), "plain"), ": ",
      headings.map((name, at) => (at > 1 && Number(row[at]) ? `${name} ${grouped(row[at])}` : "")).filter((one) => one).join(", ") || "never"));
    box.replaceChildren(make("p", { className: "note" }, "The number of timesteps with each outcome of a rule's last firing for a slot."),
      make("ul", { className: "told" }, ...list),
      ...(lines.length ? [make("h3", {}, "Worth a look"), make("ul", { className: "told" }, ...lines.map((line) => make("li", {}, line)))] : []));
  } catch (error) { failed(error); }
};
const showSide = () => ({ why, changes: changesOf, did })[state.side]();
const showChanges = () => {
  const many = D?.differs?.size || 0, node = element("tab-changes");
  node.querySelector(".count")?.remove();
  if (many) node.append(make("span", { className: "count", "aria-label": `${many} slots differ` }, String(many)));
};

// ---- saving

const showHead = () => {
  const names = parts().map((part) => `${work.files[part].name}${dirty().includes(part) ? " •" : ""}`);
  element("names").textContent = names.join("  ");
  document.title = `${dirty().length ? "• " : ""}${work.folder} · workbench`;
  element("save").disabled = !dirty().length;
  element("save").textContent = dirty().length ? `Save ${dirty().length === 1 ? work.files[dirty()[0]].name : `${dirty().length} files`}` : "Saved";
  element("undo").disabled = !work.undo.length;
  element("redo").disabled = !work.redo.length;
  element("undo").title = work.undo.length ? `Undo: ${work.undo[work.undo.length - 1].label} (Ctrl+Z)` : "Ctrl+Z";
  showChanges();
};
const save = async () => {
  if (!dirty().length) return;
  if (work.wrong.size) { say("Cells that aren't accepted have no part in what is saved."); }
  const texts = { ...work.texts };
  try {
    const { saved } = await ask("save", { texts });
    for (const part of parts()) work.files[part].text = texts[part];
    if (seen.good && parts().every((part) => seen.good.texts[part] === texts[part])) seen.saved = seen.good;
    banner("moved", null);
    say(`Saved: ${saved.join(", ")}`);
    if (D) shown();
  } catch (error) {
    if (error instanceof Refused) banner("moved", [make("p", {}, error.message), ...(error.told.which ? [buttonOf("Read it again, and keep my change for the next Save", () => reread(true)), buttonOf("Take what the disk has", () => reread(false))] : [])], true);
    else failed(error);
  }
};
const reread = async (isMine) => {
  try {
    const told = await ask("reread", {}), before = work.files;
    work.files = told.files;
    banner("moved", null);
    if (!isMine) {
      const texts = Object.fromEntries(parts().map((part) => [part, work.texts[part] === before[part].text || told.files[part].text !== before[part].text ? told.files[part].text : work.texts[part]]));
      change(texts, "what the disk has");
      showTexts();
    } else { say("Save now puts your texts in the place of what the disk has."); showHead(); }
  } catch (error) { failed(error); }
};

// ---- tabs, keys, and the beginning

const pick = (list, name) => {
  for (const node of element(list).querySelectorAll("[role=tab]")) {
    const isIt = node.id === `tab-${name}`;
    node.setAttribute("aria-selected", isIt);
    node.tabIndex = isIt ? 0 : -1;
    element(node.getAttribute("aria-controls")).hidden = !isIt;
  }
};
const tab = (name) => {
  state.tab = name;
  pick("tabs", name);
  if (!D) return;
  if (name === "results") { plots.draw(); table(); }
  if (name === "inputs") { inputsGrid(); }
  if (name === "rules") { rulesText?.draw(); remarks(); }
  if (name === "model") showForm();
};
const side = (name) => { state.side = name; pick("sides", name); if (D) showSide(); };
const tabKeys = (id, act) => {
  const nodes = [...element(id).querySelectorAll("[role=tab]")];
  nodes.forEach((node, at) => {
    const name = node.id.slice(4);
    node.addEventListener("click", () => act(name));
    node.addEventListener("keydown", (event) => {
      const to = { ArrowLeft: at - 1, ArrowRight: at + 1, Home: 0, End: nodes.length - 1 }[event.key];
      if (to === undefined) return;
      const next = nodes[(to + nodes.length) % nodes.length];
      if (next.disabled || next.hidden) return;
      act(next.id.slice(4));
      next.focus();
      event.preventDefault();
    });
  });
};
const plots = new Plots(element("charts"), state, go), picture = new Map_(element("map"), choose);
const listen = () => {
  tabKeys("tabs", tab);
  tabKeys("sides", side);
  on("undo", "click", undo);
  on("redo", "click", redo);
  on("save", "click", save);
  on("base", "change", shown);
  on("pin", "click", () => { seen.pinned = seen.good; element("base").value = "pinned"; shown(); say("The run that is shown is pinned: later runs are compared with it."); });
  on("view", "change", () => { state.view = element("view").value; plots.draw(); });
  on("which", "change", inputsGrid);
  on("inunits", "change", () => { grid.columns = []; inputsGrid(); });
  on("add", "click", dialogs.add);
  on("link", "click", () => link(!linking.isOn));
  on("larger", "click", () => picture.larger(1.25));
  on("smaller", "click", () => picture.larger(0.8));
  on("whole", "click", () => { [state.from, state.to] = [0, STEPS]; plots.draw(); });
  on("nearer", "click", () => {
    const width = Math.max(7, Math.floor((state.to - state.from) / 3)), from = Math.max(0, state.at - Math.floor(width / 2));
    [state.from, state.to] = [from, Math.min(STEPS, from + width)];
    plots.draw();
  });
  const search = () => {
    const text = element("search").value.trim().toLowerCase(), found = D.objects.find((one) => one.name.toLowerCase() === text) || D.objects.find((one) => text && one.name.toLowerCase().includes(text));
    if (found) choose(found.name); else say(`No object has ${element("search").value} in its name.`);
  };
  on("search", "change", search);
  on("search", "focus", () => element("search").select());
  Object.keys(D_UNITS).forEach((base, place) => on(`unit${place}`, "change", () => { chosen[base] = D.units[base][Number(element(`unit${place}`).value)]; plots.draw(); if (inUnits()) inputsGrid(); }));
  addEventListener("keydown", (event) => {
    const name = event.key.toLowerCase(), isCommand = event.ctrlKey || event.metaKey;
    if (isCommand && name === "s") save();
    else if (isCommand && name === "z" && !event.target.closest("dialog, #form, .cellinput")) (event.shiftKey ? redo : undo)();
    else if (isCommand && name === "y" && !event.target.closest("dialog, #form, .cellinput")) redo();
    else if (event.key === "Escape" && linking.isOn) link(false);
    else if (event.altKey && /^[1-4]$/.test(event.key)) tab(["results", "inputs", "rules", "model"][Number(event.key) - 1]);
    else return;
    event.preventDefault();
  });
  addEventListener("beforeunload", (event) => { if (dirty().length || work.wrong.size) { event.preventDefault(); event.returnValue = true; } });
  addEventListener("hashchange", () => {
    const asked = new URLSearchParams(location.hash.slice(1)), slot = D?.bySlot.get(asked.get("slot"));
    if (slot) go(slot, Number(asked.get("step")) || 1);
  });
  new ResizeObserver(() => picture.size()).observe(element("map"));
};
const D_UNITS = { "m3/step": 0, m3: 1, mm: 2, kWh: 3 };
const draft = (one) => {
  const when = new Date(one.when).toLocaleString(), names = one.changed.map((part) => work.files[part].name).join(", ");
  const moved = one.moved.length ? ` Since then ${one.moved.map((part) => work.files[part].name).join(", ")} was changed on the disk.` : "";
  banner("draft", [make("p", {}, `There is a draft of ${when} that wasn't saved: ${names}.${moved}`),
    buttonOf("Take the draft up", async () => { banner("draft", null); await ask("take", {}).catch(failed); change(one.texts, "the draft"); showTexts(); }, "main"),
    buttonOf("Discard it", async () => { banner("draft", null); try { await ask("forget", {}); say("The draft is discarded."); } catch (error) { failed(error); } })]);
};
const begin = async () => {
  listen();
  pick("tabs", "results");
  pick("sides", "why");
  try {
    const told = await ask("open", {});
    Object.assign(work, { files: told.files, kinds: told.kinds, folder: told.folder });
    work.texts = Object.fromEntries(Object.entries(told.files).map(([part, one]) => [part, one.text]));
    element("folder").textContent = told.folder;
    const typed = (part, label) => (text) => change({ ...work.texts, [part]: text }, label, { isTyped: true });
    modelText = new Editor(element("modeleditor"), { label: "The model as text", isToml: true, describedBy: "modelfindings", onType: typed("model", "typing in the model") });
    if ("policy" in work.texts) rulesText = new Editor(element("ruleseditor"), { label: "The rules", describedBy: "rulesfindings", onType: typed("policy", "typing in the rules") });
    else { element("tab-rules").hidden = element("tab-did").hidden = true; }
    showTexts();
    seen.began = performance.now();
    work.moment = told.draft ? 0 : Date.now();
    await run();
    if (told.draft) draft(told.draft);
  } catch (error) { failed(error); }
};
begin();
