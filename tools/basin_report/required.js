// Requirements: their verdicts, and each over time as a strip with its margin.
const STATES = { holds: "#009e73", fails: "#d55e00", unknown: "#8c959f" };
const MARGIN = 64, STRIP = 16;
const stateOf = (word) => (word === "-" ? "" : word === "" || word === undefined ? "unknown" : word.startsWith("-") ? "fails" : "holds");
const marginsOf = (run, place) => once(`margins${run} ${place}`, () => {
  const one = D.runs[run].required.requirements[place], words = spread(one.margins), slot = { unit: one.unit };
  const states = Array.from({ length: STEPS }, (_, at) => stateOf(words[at]));
  const values = Float64Array.from({ length: STEPS }, (_, at) => (/[0-9]/.test(words[at] || "") ? Number(words[at]) / factorAt(slot, at) : NaN));
  return { states, values, words };
});
const spansOf = (states, from, to, across, add) => {
  for (let at = from; at < to;) {
    let end = at + 1;
    while (end < to && (states[end] === states[at] || across(end) - across(at) < 0.4) && !(states[end] === "fails" && states[at] !== "fails")) end += 1;
    if (states[at]) add(states[at], at, end);
    at = end;
  }
};
const requiredChart = (run, place, width) => {
  const one = D.runs[run].required.requirements[place], { states, values } = marginsOf(run, place), { from, to } = state;
  const top = one.amount ? TOP + MARGIN + 6 : 2, height = top + STRIP + BELOW;
  const svg = drawn("svg", { viewBox: `0 0 ${width} ${height}`, width, height, "aria-hidden": true });
  const across = (at) => LEFT + ((width - LEFT - RIGHT) * (at - from)) / (to - from);
  if (one.amount) {
    const [low, high] = rangeOf([values], from, to, true) || [0, 1], up = (value) => TOP + MARGIN * (1 - (value - low) / (high - low));
    for (const tick of new Set([low, 0, high])) {
      svg.append(drawn("line", { class: tick ? "grid" : "zero", x1: LEFT, x2: width - RIGHT, y1: up(tick).toFixed(1), y2: up(tick).toFixed(1) }));
      svg.append(drawn("text", { x: LEFT - 5, y: (up(tick) + 4).toFixed(1), "text-anchor": "end" }, rounded(tick)));
    }
    const way = wayOf(values, from, to, across, up, true, width);
    svg.append(drawn("path", { class: "margin", d: way, fill: "none", "stroke-width": 1.5 }));
  }
  spansOf(states, from, to, across, (what, at, end) => {
    const box = { x: across(at).toFixed(2), y: top, width: Math.max(1, across(end) - across(at)).toFixed(2), height: STRIP };
    svg.append(drawn("rect", { ...box, class: what, fill: STATES[what] }, drawn("title", {}, `${one.name}: ${what}, timesteps ${at + 1} to ${end}`)));
  });
  svg.append(drawn("text", { x: LEFT, y: height - 4 }, beginOf(from).replace("T00:00", "").replace("T", " ")));
  svg.append(drawn("text", { x: width - RIGHT, y: height - 4, "text-anchor": "end" }, dateOf(to - 1)));
  if (state.at >= from && state.at < to) svg.append(drawn("line", { class: "now", x1: across(state.at + 0.5), x2: across(state.at + 0.5), y1: 0, y2: top + STRIP }));
  return svg;
};
const marginWords = (run, place, at) => {
  const one = D.runs[run].required.requirements[place], { states, values } = marginsOf(run, place), unit = unitOf({ unit: one.unit });
  if (!states[at]) return "does not apply";
  const margin = one.amount && states[at] !== "unknown" ? `, by ${rounded(Math.abs(values[at]))} ${one.unit ? unit : ""}` : "";
  return `${states[at] === "unknown" ? "is unknown" : states[at]}${margin}`.trim();
};
const requiredSlider = (run, place, width) => {
  const one = D.runs[run].required.requirements[place], slot = SLOTS.get(one.slot), svg = requiredChart(run, place, width);
  const lead = (step, isKey) => {
    go(slot || state.slot, step);
    if (isKey) document.querySelectorAll("#required .plot")[place].focus();
    else element("why").scrollIntoView({ block: "nearest" });
  };
  const options = { className: "plot", tabIndex: 0, role: "slider", "aria-label": `${one.name}: timestep`, "aria-valuemin": 1, "aria-valuemax": STEPS };
  const words = `Timestep ${state.at + 1}: ${one.name} ${marginWords(run, place, state.at)}`;
  const plot = make("div", { ...options, "aria-valuenow": state.at + 1, "aria-valuetext": words }, svg);
  plot.addEventListener("keydown", (event) => {
    if (!(event.key in stepBy)) return;
    event.preventDefault();
    lead(state.at + 1 + stepBy[event.key], true);
  });
  plot.addEventListener("click", (event) => {
    const box = svg.getBoundingClientRect(), x = ((event.clientX - box.left) * svg.viewBox.baseVal.width) / box.width;
    const share = (x - LEFT) / (svg.viewBox.baseVal.width - LEFT - RIGHT);
    lead(state.from + Math.floor(Math.max(0, Math.min(share, 0.999999)) * (state.to - state.from)) + 1, false);
  });
  return plot;
};
const tellRequired = (run) => {
  const told = D.runs[run].required, box = element("required");
  box.parentElement.hidden = !told;
  if (!told) return;
  const width = Math.max(260, Math.floor(box.clientWidth || element("charts").clientWidth));
  const words = "A strip shows each timestep in which a requirement applies: it holds (green), fails (orange) or is unknown (grey). The line is its margin, below 0 where it fails. A click shows why.";
  const headings = ["requirement", "wanted", "verdict", "held", "asked", "reliability", "resilience", "vulnerability", "worst margin", "first failure"];
  const rows = told.requirements.map((one) => {
    const first = one.first && SLOTS.get(one.slot) ? linkTo(SLOTS.get(one.slot), one.first, `${one.first} (${beginOf(one.first - 1).replace("T00:00", "").replace("T", " ")})`) : one.first || "-";
    return [one.name, one.wanted, make("span", { className: one.verdict === "held" || one.verdict === "never asked" ? "" : "bad" }, one.verdict), ...one.cells, first];
  });
  box.replaceChildren(noteOf(words));
  if (rows.length) box.append(tableOf("Requirements", headings, rows, 3));
  told.requirements.forEach((one, place) => {
    const unit = one.amount && one.unit ? `, margin in ${unitOf({ unit: one.unit })}` : "";
    const head = `${one.name} (${one.wanted}): ${one.verdict}${unit}. Timestep ${state.at + 1}: ${marginWords(run, place, state.at)}`;
    box.append(make("div", { className: "panel" }, make("h3", {}, head), requiredSlider(run, place, width)));
  });
  if (told.measures.length) box.append(tableOf("Measures", ["measure", "of", "value"], told.measures, 2));
};
