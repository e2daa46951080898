// What rules did, the rules, the book of water, statistics, and the table.
const MOST_ROWS = 1000;
const cellsOf = (kind, cells, left) => cells.map((cell, at) => {
  const isHead = kind === "th" || at === 0;
  return make(isHead ? "th" : "td", { className: at < left ? "left" : "", scope: kind === "th" ? "col" : isHead ? "row" : null }, cell);
});
const tableOf = (name, headings, rows, left = 1) => {
  const head = make("thead", {}, make("tr", {}, ...cellsOf("th", headings, left)));
  const body = make("tbody", {}, ...rows.map((cells) => make("tr", {}, ...cellsOf("td", cells, left))));
  return make("div", { className: "wide", tabIndex: 0, role: "region", "aria-label": name }, make("table", {}, head, body));
};
const tellEffects = (run) => {
  const { headings, rows, lines } = D.runs[run].effects, box = element("effects");
  const words = "The number of timesteps with each outcome of a rule's last firing for a slot. docs/GUIDE.md says what each heading means.";
  box.replaceChildren(make("p", { className: "note" }, words));
  box.append(tableOf("What each rule did", headings, rows.map((row) => row.map((cell, at) => (at < 2 ? cell : grouped(cell)))), 2));
  if (lines.length) box.append(make("ul", {}, ...lines.map((line) => make("li", {}, line))));
  if (D.asked) box.append(make("p", { className: "note" }, D.asked));
};
const tellPolicy = () => {
  const { lines, remarks } = D.policy, list = make("ol", { className: "code" });
  lines.forEach((text, at) => {
    const mine = remarks.filter((one) => one.line === at + 1), letters = Array.from(text);
    const item = make("li", {}, make("span", { className: "number", "aria-hidden": true }, String(at + 1)));
    if (mine.length) {
      const { from, to } = mine[0];
      item.append(letters.slice(0, from).join(""), make("mark", {}, letters.slice(from, to).join("")), letters.slice(to).join(""));
    } else item.append(text);
    list.append(item);
    for (const one of mine) list.append(make("li", { className: `remark ${one.sort}` }, one.says));
  });
  element("policy").replaceChildren(list);
};

// ---- the book of water

const plus = (numbers) => numbers.reduce((sum, one) => sum + BigInt(one), 0n);
const tellBook = (run) => {
  const { said, rows, brought, taken } = D.runs[run].book, box = element("book"), info = D.runs[run];
  box.replaceChildren(make("p", { className: "note" }, `In m3, over ${grouped(info.closed)} closed timesteps of ${runName(run)}: initial + in - out = final.`));
  if (said) { box.append(make("p", {}, said)); return; }
  const known = rows.filter((row) => row.length > 1), sums = [1, 2, 3, 4].map((at) => String(plus(known.map((row) => row[at]))));
  const told = rows.map((row) => (row.length > 1 ? row.map((cell, at) => (at ? grouped(cell) : cell)) : [row[0], "unknown", "", "", ""]));
  if (known.length > 1) told.push(["all of these", ...sums.map(grouped)]);
  if (rows.length) box.append(tableOf("The book of each object", ["object", "initial", "in", "out", "final"], told));
  if (known.length > 1) box.append(make("p", { className: "note" }, "Water that goes from one of these objects to another is in both of their books."));
  const [came, left] = [plus(brought.map((one) => one[1])), plus(taken.map((one) => one[1]))];
  const more = known.length ? BigInt(sums[3]) - BigInt(sums[0]) : 0n;
  const basin = [...brought.map(([name, sum]) => [`came in: ${name}`, grouped(sum)]), ...taken.map(([name, sum]) => [`left: ${name}`, grouped(sum)])];
  basin.push(["came in, all", grouped(came)], ["left, all", grouped(left)], ["held more at the end", grouped(more)]);
  basin.push(["on its way at the end, less at first; or not known", grouped(came - left - more)]);
  box.append(make("h3", {}, "The whole basin"), tableOf("The water balance of the whole basin", ["what", "m3"], basin));
};

// ---- statistics

const sumUnit = (slot) => (slot.unit === "m3/step" ? "m3" : slot.unit === "mm/step" ? "mm" : slot.unit);
const statisticsOf = (run, slot, from, to) => {
  const shown = shownOf(run, slot), numbers = numbersOf(run, slot), texts = textsOf(run, slot);
  let least = -1, most = -1, sum = 0, whole = 0n, count = 0;
  for (let at = from; at < to; at += 1) {
    if (Number.isNaN(numbers[at])) continue;
    if (least < 0 || numbers[at] < numbers[least]) least = at;
    if (most < 0 || numbers[at] > numbers[most]) most = at;
    sum += shown[at];
    whole += BigInt(texts[at]);
    count += 1;
  }
  const place = (at) => (at < 0 ? "" : `${rounded(shown[at])} (${dateOf(at)})`);
  const total = isFlow(slot) && slot.unit ? `${grouped(whole)} ${sumUnit(slot)}` : "";
  return [slot.name, unitOf(slot), grouped(count), place(least), count ? rounded(sum / count) : "", place(most), total];
};
const tellStatistics = (run, thing, from, to) => {
  const rows = thing.slots.map((slot) => statisticsOf(run, slot, from, to));
  const name = `Statistics of ${thing.name}, ${runName(run)}`;
  element("statistics").replaceChildren(make("p", { className: "note" }, `${name}, timesteps ${from + 1} to ${to}.`));
  element("statistics").append(tableOf(name, ["slot", "unit", "known", "least", "mean", "greatest", "sum"], rows, 2));
};

// ---- the table

const columnsOf = (thing, runs) => runs.flatMap((run) => thing.slots.map((slot) => ({ run, slot })));
const headingOf = ({ run, slot }, isOne) => `${slot.name} [${slot.unit || "number"}]${isOne ? "" : `, ${runName(run)}`}`;
const plainTable = (columns, from, to) => {
  const lines = [["step", "ends", ...columns.map((one) => headingOf(one, columns.every((other) => other.run === one.run)))]];
  for (let at = from; at < to; at += 1) lines.push([at + 1, D.stamps[at], ...columns.map(({ run, slot }) => textsOf(run, slot)[at] || "")]);
  return lines.map((line) => line.join("\t")).join("\n") + "\n";
};
const copy = async (text, said) => {
  try {
    await navigator.clipboard.writeText(text);
  } catch (error) {
    const area = make("textarea", { value: text });
    document.body.append(area);
    area.select();
    document.execCommand("copy");
    area.remove();
  }
  said("The table is copied: it can be put into a spreadsheet.");
};
const tellTable = (runs, thing, from, to, now, say) => {
  const columns = columnsOf(thing, runs), last = Math.min(to, from + MOST_ROWS), rows = [];
  for (let at = from; at < last; at += 1) rows.push([String(at + 1), dateOf(at), ...columns.map(({ run, slot }) => exact(textsOf(run, slot)[at]))]);
  const headings = ["step", "ends", ...columns.map((one) => headingOf(one, runs.length === 1))];
  const table = tableOf(`The table of ${thing.name}`, headings, rows, 2), button = make("button", { type: "button", id: "copy" }, "Copy the table");
  button.addEventListener("click", () => copy(plainTable(columns, from, to), say));
  const more = to > last ? ` The first ${grouped(MOST_ROWS)} of them are shown; dates choose others, and all are copied.` : "";
  const words = `${thing.name}, timesteps ${from + 1} to ${to}, in whole base units, as the program wrote them.${more}`;
  element("table").replaceChildren(make("p", { className: "note" }, words), button, table);
  const mark = table.querySelectorAll("tbody tr")[now - from];
  if (mark) mark.className = "now";
};
