// Hydrographs, with strips of who set each value.
const COLOURS = ["#0072b2", "#d55e00", "#009e73", "#cc79a7", "#e69f00", "#56b4e9", "#8c6d31", "#7f7f7f"];
const DASHES = ["", "7 3", "2 2", "9 3 2 3"];
const WRITERS = { I: "#56b4e9", O: "#b8bfc6" };
const RULES = ["#d55e00", "#009e73", "#e69f00", "#cc79a7", "#0072b2", "#f0e442", "#882255", "#332288"];
const LIGHT = ["#56b4e9", "#b8bfc6", "#e69f00", "#cc79a7", "#f0e442"];
const LEFT = 74, RIGHT = 8, TOP = 8, BELOW = 18, ROW = 13, HEIGHT = 170;
const colourOf = (place) => COLOURS[place % COLOURS.length];
const dashOf = (place) => DASHES[Math.floor(place / COLOURS.length) % DASHES.length];
const paintOf = (flag) => (flag[0] === "R" ? RULES[(Number(flag.slice(1)) - 1) % RULES.length] : WRITERS[flag[0]] || "none");
const isHatched = (flag) => flag[0] === "R" && Number(flag.slice(1)) > RULES.length;

const rangeOf = (lists, from, to, isFromZero) => {
  let low = Infinity, high = -Infinity;
  for (const list of lists) {
    for (let at = from; at < to; at += 1) {
      if (list[at] < low) low = list[at];
      if (list[at] > high) high = list[at];
    }
  }
  if (low === Infinity) return null;
  if (isFromZero) { low = Math.min(low, 0); high = Math.max(high, 0); }
  if (high === low) { high += Math.abs(high) * 0.05 || 1; low -= isFromZero ? 0 : Math.abs(low) * 0.05 || 1; }
  return [low, high];
};
const ticksOf = (low, high) => {
  const rough = (high - low) / 4, power = 10 ** Math.floor(Math.log10(rough));
  const size = [1, 2, 5, 10].map((one) => one * power).find((one) => one >= rough);
  const ticks = [];
  for (let tick = Math.ceil(low / size) * size; tick <= high + size / 1e6; tick += size) ticks.push(Math.abs(tick) < size / 1e6 ? 0 : tick);
  return ticks;
};

// The way of a line: steps over each timestep, or through what holds at the ends. Of many timesteps at one place least and greatest.
const wayOf = (list, from, to, across, up, isStepped, width) => {
  const many = Math.ceil((to - from) / width);
  let way = "", isOpen = false;
  const to_ = (x, y) => { way += `${isOpen ? "L" : "M"}${x.toFixed(1)} ${y.toFixed(1)}`; isOpen = true; };
  for (let at = from; at < to; at += many) {
    const part = list.subarray ? list.subarray(at, Math.min(at + many, to)) : list.slice(at, Math.min(at + many, to));
    const known = part.filter((one) => !Number.isNaN(one));
    if (!known.length) { isOpen = false; continue; }
    if (many > 1) {
      to_(across(at), up(Math.min(...known)));
      to_(across(at), up(Math.max(...known)));
    } else if (isStepped) {
      to_(across(at), up(known[0]));
      to_(across(at + 1), up(known[0]));
    } else to_(across(at + 1), up(known[0]));
  }
  return way;
};

const hatching = () =>
  drawn("svg", { width: 0, height: 0, "aria-hidden": true },
    drawn("defs", {},
      drawn("pattern", { id: "hatch", width: 5, height: 5, patternUnits: "userSpaceOnUse", patternTransform: "rotate(45)" },
        drawn("rect", { width: 2, height: 5, fill: "#fff", opacity: 0.65 }))));

const stripOf = (svg, flags, from, to, across, top, name) => {
  for (let at = from; at < to;) {
    let end = at + 1;
    while (end < to && (flags[end] || "") === (flags[at] || "")) end += 1;
    while (end < to && across(end) - across(at) < 0.4) end += 1;
    const flag = flags[at] || "", x = across(at), width = across(end) - x;
    if (flag) {
      const box = { x: x.toFixed(2), y: top, width: width.toFixed(2), height: ROW - 2 };
      svg.append(drawn("rect", { ...box, fill: paintOf(flag) }, drawn("title", {}, `${name}: ${whoOf(flag)} (${flag}), timesteps ${at + 1} to ${end}`)));
      if (isHatched(flag)) svg.append(drawn("rect", { ...box, fill: "url(#hatch)" }));
      if (width > 9 + 6 * flag.length) {
        const ink = LIGHT.includes(paintOf(flag)) ? "#111" : "#fff";
        svg.append(drawn("text", { x: (x + 3).toFixed(1), y: top + ROW - 4, class: "letter", style: `fill: ${ink}` }, flag));
      }
    }
    at = end;
  }
};

// A chart: lines [{ list, name, colour, dash, thin }], strips [{ flags, name }], which timestep is marked.
const chartOf = ({ lines, strips, from, to, now, width, isStepped, isFromZero, range }) => {
  const bottom = TOP + HEIGHT, height = bottom + BELOW + ROW * strips.length + 2;
  const svg = drawn("svg", { viewBox: `0 0 ${width} ${height}`, width, height, "aria-hidden": true });
  const across = (at) => LEFT + ((width - LEFT - RIGHT) * (at - from)) / (to - from);
  const [low, high] = range || rangeOf(lines.map((line) => line.list), from, to, isFromZero) || [0, 1];
  const up = (value) => TOP + HEIGHT * (1 - (value - low) / (high - low));
  for (const tick of ticksOf(low, high)) {
    svg.append(drawn("line", { class: "grid", x1: LEFT, x2: width - RIGHT, y1: up(tick).toFixed(1), y2: up(tick).toFixed(1) }));
    svg.append(drawn("text", { x: LEFT - 5, y: (up(tick) + 4).toFixed(1), "text-anchor": "end" }, rounded(tick)));
  }
  const dates = Math.max(1, Math.floor((width - LEFT) / 110));
  for (let tick = 0; tick < dates; tick += 1) {
    const at = from + Math.floor(((to - from) * tick) / dates);
    svg.append(drawn("line", { class: "grid", x1: across(at), x2: across(at), y1: bottom, y2: bottom + 4 }));
    svg.append(drawn("text", { x: across(at) + 2, y: bottom + 14 }, beginOf(at).replace("T00:00", "").replace("T", " ")));
  }
  for (const line of lines) {
    const way = wayOf(line.list, from, to, across, up, isStepped, width);
    const [size, opacity] = line.thin ? [1, 0.45] : [1.8, 1];
    const look = { fill: "none", stroke: line.colour, "stroke-width": size, "stroke-dasharray": line.dash || "none", opacity };
    svg.append(drawn("path", { d: way, ...look }));
  }
  strips.forEach((strip, row) => {
    const top = bottom + BELOW + ROW * row;
    stripOf(svg, strip.flags, from, to, across, top, strip.name);
    const label = strip.name.split(".")[1];
    svg.append(drawn("text", { x: LEFT - 5, y: top + ROW - 3, "text-anchor": "end", class: "letter" }, label.length > 12 ? `${label.slice(0, 11)}…` : label));
  });
  if (now >= from && now < to) svg.append(drawn("line", { class: "now", x1: across(now + 0.5), x2: across(now + 0.5), y1: TOP, y2: height }));
  return svg;
};
const swatchOf = (colour, dash) => {
  const look = { stroke: colour, "stroke-width": 3, "stroke-dasharray": dash || "none" };
  return drawn("svg", { width: 22, height: 8, "aria-hidden": true }, drawn("line", { x1: 0, x2: 22, y1: 4, y2: 4, ...look }));
};
const boxOf = (flag) => {
  const svg = drawn("svg", { width: 14, height: 11, "aria-hidden": true }, drawn("rect", { width: 14, height: 11, fill: paintOf(flag) }));
  if (isHatched(flag)) svg.append(drawn("rect", { width: 14, height: 11, fill: "url(#hatch)" }));
  return svg;
};
