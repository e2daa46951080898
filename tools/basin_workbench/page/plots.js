// Hydrographs of an object: the run that is shown (0), and the one with which it is compared (1), where they differ.
const stepBy = { ArrowLeft: -1, ArrowRight: 1, PageUp: -10, PageDown: 10, Home: -Infinity, End: Infinity };
const noteOf = (text) => make("p", { className: "note" }, text);

export class Plots {
  constructor(box, state, go) {
    Object.assign(this, { box, state, go });
    new ResizeObserver(() => { if (Math.abs(this.box.clientWidth - (this.width || 0)) > 3) this.draw(); }).observe(box);
  }

  draw() {
    const { state, box } = this;
    if (!D || !box.clientWidth) return;
    this.width = box.clientWidth;
    const width = Math.max(240, box.clientWidth - 16), isFocused = document.activeElement?.closest?.(".plot")?.dataset.unit;
    const panels = [...this.groups()].map(([unit, slots]) => this.panel(unit, slots, width));
    const top = box.scrollTop;
    box.replaceChildren(...(panels.length ? panels : [make("p", { className: "note" }, "Nothing of it is known in this run.")]), this.key());
    box.scrollTop = top;
    if (isFocused) box.querySelector(`.plot[data-unit="${CSS.escape(isFocused)}"]`)?.focus({ preventScroll: true });
  }

  runs() { return D.runs.length > 1 ? [0, 1] : [0]; }

  groups() {
    const groups = new Map();
    for (const slot of this.state.thing.slots.filter((one) => this.runs().some((run) => textsOf(run, one).some((text) => text)))) {
      const unit = unitOf(slot);
      groups.set(unit, [...(groups.get(unit) || []), slot]);
    }
    return groups;
  }

  panel(unit, slots, width) {
    const { from, to, at } = this.state, common = { from, to, now: at, isStepped: isFlow(slots[0]), isFromZero: unit !== unitOf({ unit: "mm" }) };
    const isChanged = D.runs.length > 1 && slots.some((slot) => D.differs.has(slot.name)), panel = make("div", { className: "panel" }, this.legend(slots, unit));
    const strips = (run) => slots.map((slot) => ({ flags: flagsOf(run, slot), name: slot.name }));
    if (isChanged && this.state.view === "pair") {
      const range = rangeOf([0, 1].flatMap((run) => slots.map((slot) => shownOf(run, slot))), from, to, common.isFromZero), half = (width - 8) / 2;
      const chart = (run) => make("div", {}, noteOf(runName(run)), this.slider(chartOf({ ...common, lines: linesOf(run, slots), strips: strips(run), width: half, range }), `${unit} ${run}`, slots));
      const apart = linesOf(0, slots).map((line, place) => { const was = shownOf(1, slots[place]); return { ...line, list: line.list.map((value, step) => value - was[step]) }; });
      panel.append(make("div", { className: "pair" }, chart(1), chart(0)), noteOf(`The difference: ${runName(0)} less ${runName(1)}`), this.slider(chartOf({ ...common, lines: apart, strips: [], width, isFromZero: true }), `${unit} apart`, slots));
      return panel;
    }
    const lines = [...(isChanged ? linesOf(1, slots, { thin: true }) : []), ...linesOf(0, slots)];
    panel.append(this.slider(chartOf({ ...common, lines, strips: strips(0), width }), unit, slots));
    if (isChanged) panel.append(noteOf(`Thin lines: ${runName(1)}`));
    return panel;
  }

  slider(svg, unit, slots) {
    const { state } = this, said = slots.map((slot) => `${slot.short} ${rounded(shownOf(0, slot)[state.at])}`).join(", ");
    const options = { className: "plot", tabIndex: 0, role: "slider", "aria-label": `${state.thing.name}, ${unit}: timestep`, "aria-valuemin": 1, "aria-valuemax": STEPS };
    const plot = make("div", { ...options, "aria-valuenow": state.at + 1, "aria-valuetext": `Timestep ${state.at + 1}, ends ${D.stamps[state.at]}. ${said}` }, svg);
    plot.dataset.unit = unit;
    plot.addEventListener("keydown", (event) => {
      if (!(event.key in stepBy)) return;
      event.preventDefault();
      this.go(state.slot, state.at + 1 + stepBy[event.key]);
    });
    plot.addEventListener("click", (event) => {
      const box = svg.getBoundingClientRect(), x = ((event.clientX - box.left) * svg.viewBox.baseVal.width) / box.width;
      const share = (x - LEFT) / (svg.viewBox.baseVal.width - LEFT - RIGHT);
      plot.focus({ preventScroll: true });
      this.go(slots.includes(state.slot) ? state.slot : slots[0], state.from + Math.floor(share * (state.to - state.from)) + 1);
    });
    return plot;
  }

  legend(slots, unit) {
    const buttons = slots.map((slot, place) => {
      const was = D.runs.length > 1 && D.differs.has(slot.name) ? shownOf(1, slot)[this.state.at] : NaN, is = shownOf(0, slot)[this.state.at];
      const words = ` ${slot.name} ${rounded(is)} ${slot.unit ? unit : ""}${!Number.isNaN(was) && was !== is ? ` (was ${rounded(was)})` : ""}`;
      const button = make("button", { type: "button", "aria-pressed": slot === this.state.slot }, swatchOf(colourOf(place), dashOf(place)), words);
      button.addEventListener("click", () => this.go(slot, this.state.at + 1));
      return button;
    });
    return make("div", { className: "legend", role: "group", "aria-label": `Slots in ${unit}` }, ...buttons);
  }

  key() {
    const flags = new Set(this.state.thing.slots.flatMap((slot) => flagsOf(0, slot).map((flag) => (flag[0] === "R" ? flag : flag[0]))).filter((flag) => flag));
    const order = (flag) => (flag[0] === "R" ? Number(flag.slice(1)) : flag === "I" ? -2 : -1), words = { I: "I: an input", O: "O: an object" };
    const keys = [...flags].sort((one, other) => order(one) - order(other)).map((flag) => make("span", {}, boxOf(flag), ` ${words[flag] || `${flag}: ${whoOf(flag)}`}`));
    return make("div", { className: "key", role: "group", "aria-label": "Who set a value" }, ...keys);
  }
}

const linesOf = (run, slots, more) => slots.map((slot, place) => ({ list: shownOf(run, slot), name: slot.name, colour: colourOf(place), dash: dashOf(place), ...more }));
