// The keys of an object as a form, its links, and the timesteps of the run.
const RUN = [
  { name: "start", type: "text", allowed: 'as 2020-10-01T00:00' },
  { name: "step", type: "words", words: ["1h", "6h", "12h", "24h", "1month"] },
  { name: "steps", type: "integer", unit: "timesteps", low: "1", high: "4096" },
];
const UNITS = ["m3", "dam3", "Mm3", "mm", "m", "step", "m3/step", "dam3/step", "mm/step", "m3/mm", "kWh", ""];
const words = (name) => name.replace(/_/g, " ");

export const formOf = (thing, { kinds, links, run, change, dialogs }) => {
  const keys = kinds[thing.kind.replace(/ /g, "_")] || [], parts = [];
  const set = (key, value) => change({ act: "key", object: thing.name, key, value });
  parts.push(make("h2", {}, `${thing.name} `, make("span", { className: "faint" }, `(${thing.kind})`)));
  const [rename, remove] = [make("button", { type: "button", id: "rename" }, "Rename"), make("button", { type: "button", id: "delete", className: "danger" }, "Delete")];
  rename.addEventListener("click", () => dialogs.rename(thing));
  remove.addEventListener("click", () => dialogs.remove(thing));
  parts.push(make("div", { className: "bar", style: "padding-left: 0" }, rename, remove));
  for (const key of keys) parts.push(fieldOf(key, thing.keys[key.name], (value) => set(key.name, value)));
  if (!keys.length) parts.push(make("p", { className: "note" }, "This type of object has no keys but its name."));
  const mine = links.filter((link) => link.some((slot) => slot.split(".")[0] === thing.name));
  parts.push(make("h3", {}, "Links"));
  const rows = mine.map((link) => {
    const button = make("button", { type: "button", "aria-label": `Unlink ${link.join(" and ")}` }, "Unlink");
    button.addEventListener("click", () => change({ act: "unlink", slots: link }));
    return make("li", {}, make("span", {}, link.join(" = ")), button);
  });
  parts.push(rows.length ? make("ul", { className: "links" }, ...rows) : make("p", { className: "note" }, "None. Press Link two objects, next to the map."));
  parts.push(make("h3", {}, "Timesteps of the run"));
  for (const key of RUN) parts.push(fieldOf({ ...key, required: true, words: key.words || [] }, run[key.name], (value) => change({ act: "key", object: null, key: key.name, value })));
  return parts;
};

const labelled = (key, input, more) => make("label", { className: "field" }, make("span", {}, words(key.name), make("small", {}, more ?? (key.unit || ""))), input);

const fieldOf = (key, value, set) => {
  if (key.type === "boolean") {
    const input = make("input", { type: "checkbox", checked: value === true, name: key.name });
    input.addEventListener("change", () => set(input.checked ? true : null));
    return labelled(key, input);
  }
  if (key.name === "table") return tableOf(key, value, set);
  if (key.name === "slots") return slotsOf(value || [], set);
  if (key.words.length) {
    const input = make("select", { name: key.name }, ...key.words.map((word) => make("option", { value: word }, word)));
    input.value = value ?? key.words[0];
    input.addEventListener("change", () => set(input.value));
    return labelled(key, input);
  }
  const isList = key.type === "array", shown = value === undefined ? "" : isList ? value.join(", ") : String(value);
  const input = make("input", { value: shown, name: key.name, title: key.allowed || null, inputMode: key.type === "integer" ? "numeric" : "text", placeholder: key.required ? "" : "none" });
  input.addEventListener("change", () => {
    const text = input.value.trim();
    input.setAttribute("aria-invalid", text === "" && key.required);
    if (text === "" && key.required) { input.title = `${words(key.name)} is required`; input.focus(); return; }
    if (isList) set(text === "" ? null : text.split(/[,\s]+/).filter((one) => one).map((one) => one.replace(/_/g, "")));
    else set(text === "" && !key.required ? null : key.type === "integer" ? text.replace(/[_,\s]/g, "") : text);
  });
  return labelled(key, input, key.type === "integer" ? key.unit || "" : isList ? `${key.unit || ""}, with commas` : key.allowed || "");
};

const tableOf = (key, value, set) => {
  const rows = (value || []).map((row) => row.slice()), box = make("div", { className: "key", role: "group", "aria-label": "Table of elevations and volumes" });
  const store = () => set(rows.length ? rows.map((row) => row.map((one) => String(one).replace(/[_,\s]/g, ""))) : null);
  const body = rows.map((row, at) => {
    const cells = row.map((one, side) => {
      const input = make("input", { value: String(one), "aria-label": `Row ${at + 1}, ${side ? "volume in m3" : "elevation in mm"}`, inputMode: "numeric" });
      input.addEventListener("change", () => { row[side] = input.value.trim(); store(); });
      return make("td", {}, input);
    });
    const less = make("button", { type: "button", "aria-label": `Take row ${at + 1} away` }, "−");
    less.addEventListener("click", () => { rows.splice(at, 1); store(); });
    return make("tr", {}, ...cells, make("td", {}, less));
  });
  const more = make("button", { type: "button" }, rows.length ? "Add a row" : "Add a table");
  more.addEventListener("click", () => {
    const last = rows[rows.length - 1], before = rows[rows.length - 2] || [0, 0];
    if (!last) rows.push([0, 0], [10000, 1000000]);
    else rows.push([Number(last[0]) + Math.max(1, last[0] - before[0]), Number(last[1]) + Math.max(1, last[1] - before[1])]);
    store();
  });
  box.append(make("span", {}, "table"), ...(rows.length ? [make("table", { className: "levels" }, make("thead", {}, make("tr", {}, make("th", { scope: "col" }, "elevation, mm"), make("th", { scope: "col" }, "volume, m3"), make("td", {}))), make("tbody", {}, ...body))] : []), " ", more);
  return box;
};

const slotsOf = (value, set) => {
  const rows = value.map((one) => ({ ...one })), box = make("div", { className: "key", role: "group", "aria-label": "Slots" });
  const body = rows.map((row, at) => {
    const [name, unit] = [make("input", { value: row.name, "aria-label": `Name of slot ${at + 1}` }), make("select", { "aria-label": `Unit of slot ${at + 1}` }, ...UNITS.map((one) => make("option", { value: one }, one || "a number")))];
    unit.value = row.unit;
    name.addEventListener("change", () => { row.name = name.value.trim(); set(rows); });
    unit.addEventListener("change", () => { row.unit = unit.value; set(rows); });
    const less = make("button", { type: "button", "aria-label": `Take slot ${at + 1} away` }, "−");
    less.addEventListener("click", () => { rows.splice(at, 1); set(rows); });
    return make("tr", {}, make("td", {}, name), make("td", {}, unit), make("td", {}, less));
  });
  const more = make("button", { type: "button" }, "Add a slot");
  more.addEventListener("click", () => { rows.push({ name: `Value${rows.length + 1}`, unit: "m3" }); set(rows); });
  box.append(make("table", { className: "levels" }, make("tbody", {}, ...body)), more);
  return box;
};
