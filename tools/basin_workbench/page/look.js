// What the report's scripts (charts.js, why.js) expect to be there: what is known of the basin, and of runs 0 (the one that is
// shown) and 1 (the one it is compared with).
"use strict";
let D = null, STEPS = 0, kept = {};
const held = {}; // texts in the place of elements: the story of a run
const element = (id) => held[id] || document.getElementById(id);
const make = (name, options = {}, ...parts) => {
  const made = document.createElement(name);
  for (const [key, value] of Object.entries(options)) {
    if (value === null || value === undefined) continue;
    if (key in made && key !== "list") made[key] = value;
    else made.setAttribute(key, value);
  }
  made.append(...parts);
  return made;
};
const drawn = (name, options = {}, ...parts) => {
  const made = document.createElementNS("http://www.w3.org/2000/svg", name);
  for (const [key, value] of Object.entries(options)) made.setAttribute(key, value);
  made.append(...parts);
  return made;
};
const once = (key, reckon) => (key in kept ? kept[key] : (kept[key] = reckon()));
const textsOf = (run, slot) => D.runs[run].values.get(slot.name) || [];
const flagsOf = (run, slot) => D.runs[run].flags.get(slot.name) || [];
const numbersOf = (run, slot) =>
  once(`numbers${run} ${slot.name}`, () => Float64Array.from({ length: STEPS }, (_, at) => {
    const text = textsOf(run, slot)[at];
    return text === undefined || text === "" ? NaN : Number(text);
  }));

// ---- units

const chosen = {};
const unitOf = (slot) => (chosen[slot.unit] ? chosen[slot.unit][0] : slot.unit || "a number");
const factorAt = (slot, at) => {
  const unit = chosen[slot.unit];
  return unit ? unit[1] * (unit[2] ? D.seconds[at] : 1) : 1;
};
const shownOf = (run, slot) =>
  once(`shown${run} ${slot.name} ${unitOf(slot)}`, () => numbersOf(run, slot).map((value, at) => value / factorAt(slot, at)));

// ---- words

const grouped = (text) => String(text).replace(/\B(?=(\d{3})+$)/g, ",");
const exact = (value) => (value === null || value === undefined || value === "" ? "unknown" : grouped(value));
const rounded = (value) => (Number.isNaN(value) || value === undefined ? "unknown" : value.toLocaleString("en-US", { maximumSignificantDigits: 6 }));
const isFlow = (slot) => slot.unit.endsWith("/step") || slot.unit === "kWh" || slot.unit === "";
const dateOf = (at) => D.stamps[at].replace("T00:00", "").replace("T", " ");
const beginOf = (at) => (at ? D.stamps[at - 1] : D.begin);
const whoOf = (flag) => {
  if (!flag) return "nobody";
  if (flag[0] === "I") return "an input";
  if (flag[0] === "R") return D.rules[Number(flag.slice(1)) - 1] || `rule ${flag.slice(1)}`;
  return flag === "O0" ? "an object, from what inputs give" : `an object, as strong as rule ${flag.slice(1)}`;
};
const runName = (run) => D.runs[run].name;
