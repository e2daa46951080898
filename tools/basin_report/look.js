// What the page knows, and how numbers are read and written.
"use strict";
const element = (id) => document.getElementById(id);
const D = JSON.parse(element("data").textContent);
const STEPS = D.stamps.length;
const make = (name, options = {}, ...parts) => {
  const made = document.createElement(name);
  for (const [key, value] of Object.entries(options)) {
    if (key in made && key !== "list") made[key] = value;
    else made.setAttribute(key, value);
  }
  made.append(...parts);
  return made;
};
const drawn = (name, options = {}, ...parts) => {
  const made = document.createElementNS("http://www.w3.org/2000/svg", name);
  for (const [key, value] of Object.entries(options)) made.setAttribute(key, value);
  made.append(...parts);
  return made;
};

D.slots.forEach((slot, place) => { slot.place = place; slot.object = D.objects[slot.object]; slot.short = slot.name.split(".")[1]; });
D.objects.forEach((thing) => { thing.slots = D.slots.filter((slot) => slot.object === thing); });
const SLOTS = new Map(D.slots.map((slot) => [slot.name, slot]));
const OBJECTS = new Map(D.objects.map((thing) => [thing.name, thing]));

// ---- numbers of a run: `word*n` is n times the same word, an empty one is unknown

const spread = (text) => {
  const words = [];
  if (text !== "") {
    for (const piece of text.split(",")) {
      const [word, times] = piece.split("*");
      for (let count = Number(times || 1); count > 0; count -= 1) words.push(word);
    }
  }
  return words;
};
const kept = {};
const once = (key, reckon) => (key in kept ? kept[key] : (kept[key] = reckon()));
const seriesOf = (run) => once(`series${run}`, () => JSON.parse(element(`series${run}`).textContent));
const textsOf = (run, slot) => once(`texts${run} ${slot.first}`, () => spread(seriesOf(run).values[slot.first]));
const flagsOf = (run, slot) => once(`flags${run} ${slot.first}`, () => spread(seriesOf(run).flags[slot.first]));
const numbersOf = (run, slot) =>
  once(`numbers${run} ${slot.first}`, () => Float64Array.from({ length: STEPS }, (_, at) => {
    const text = textsOf(run, slot)[at];
    return text === undefined || text === "" ? NaN : Number(text);
  }));

// ---- units

const chosen = Object.fromEntries(Object.entries(D.units).map(([base, units]) => [base, units[D.chosen[base]]]));
const unitOf = (slot) => (chosen[slot.unit] ? chosen[slot.unit][0] : slot.unit || "a number");
const factorAt = (slot, at) => {
  const unit = chosen[slot.unit];
  return unit ? unit[1] * (unit[2] ? D.seconds[at] : 1) : 1;
};
const shownOf = (run, slot) =>
  once(`shown${run} ${slot.first} ${unitOf(slot)}`, () => numbersOf(run, slot).map((value, at) => value / factorAt(slot, at)));

// ---- words

const grouped = (text) => String(text).replace(/\B(?=(\d{3})+$)/g, ",");
const exact = (value) => (value === null || value === undefined || value === "" ? "unknown" : grouped(value));
const rounded = (value) => (Number.isNaN(value) || value === undefined ? "unknown" : value.toLocaleString("en-US", { maximumSignificantDigits: 6 }));
const cellWords = (slot, step) => `${slot.name} at timestep ${step}`;
const isFlow = (slot) => slot.unit.endsWith("/step") || slot.unit === "kWh" || slot.unit === "";
const dateOf = (at) => D.stamps[at].replace("T00:00", "").replace("T", " ");
const beginOf = (at) => (at ? D.stamps[at - 1] : D.begin);
const whoOf = (flag) => {
  if (!flag) return "nobody";
  if (flag[0] === "I") return "an input";
  if (flag[0] === "R") return D.rules[Number(flag.slice(1)) - 1];
  return flag === "O0" ? "an object, from what inputs give" : `an object, as strong as rule ${flag.slice(1)}`;
};
const runName = (run) => (D.runs.length === 1 ? "the run" : D.runs[run].batch ? `batch ${D.runs[run].batch}` : "before the edits");
