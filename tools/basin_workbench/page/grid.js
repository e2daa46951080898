// A sheet of cells, of which only those on the screen are drawn. Arrows go through it, typing edits, and it copies and pastes.
const HEIGHT = 24, MORE = 8;

export class Sheet {
  // columns: [{ head, sub, isEdited }]; cell(row, column) tells { text, look, title }; side(row) tells [number, date]
  constructor(host, { label, cell, side, onChoose, onPut, textOf, isNow }) {
    Object.assign(this, { cell, side, onChoose, onPut, isNow, textOf });
    this.columns = [];
    this.rows = 0;
    this.at = [0, 0];
    this.from = [0, 0];
    this.box = make("div", { className: "sheet", tabIndex: 0, role: "grid", "aria-label": label });
    this.id = `s${Math.random().toString(36).slice(2, 8)}`;
    this.head = make("div", { className: "head", role: "row" });
    this.lines = make("div", { role: "rowgroup" });
    this.layer = make("div", {}); // what is typed: it stays where rows are drawn anew
    this.body = make("div", { className: "body" }, this.lines, this.layer);
    this.box.append(this.head, this.body);
    host.replaceChildren(this.box);
    this.box.addEventListener("scroll", () => this.draw());
    this.box.addEventListener("keydown", (event) => this.key(event));
    this.box.addEventListener("mousedown", (event) => this.press(event));
    this.box.addEventListener("mousemove", (event) => { if (event.buttons === 1 && this.isDragged) this.go(this.placeOf(event) || this.at, true); });
    this.box.addEventListener("mouseup", () => { this.isDragged = false; });
    this.box.addEventListener("dblclick", () => this.edit());
    this.box.addEventListener("copy", (event) => this.copy(event));
    this.box.addEventListener("paste", (event) => this.paste(event));
    new ResizeObserver(() => this.draw()).observe(this.box);
  }

  show(columns, rows) {
    const isSame = columns.length === this.columns.length && columns.every((one, place) => one.head === this.columns[place].head && one.sub === this.columns[place].sub);
    this.columns = columns;
    this.rows = rows;
    this.at = [Math.min(this.at[0], rows - 1), Math.min(this.at[1], Math.max(0, columns.length - 1))];
    this.from = isSame ? this.from : this.at;
    this.box.setAttribute("aria-rowcount", rows + 1);
    this.box.setAttribute("aria-colcount", columns.length + 1);
    if (!isSame) {
      const heads = columns.map((one, place) => make("div", { className: "cell", role: "columnheader", "aria-colindex": place + 2 }, one.head, make("small", {}, one.sub)));
      this.head.replaceChildren(make("div", { className: "cell side", role: "columnheader" }, make("b", {}, "step"), "begins"), ...heads);
    }
    this.body.style.height = `${rows * HEIGHT}px`;
    this.draw();
  }

  // Draws with the next picture of the screen, once.
  draw() {
    if (this.isDue) return;
    this.isDue = true;
    requestAnimationFrame(() => { this.isDue = false; this.drawNow(); });
  }

  drawNow() {
    if (!this.box.clientHeight) return;
    const width = this.head.children[1]?.offsetWidth || 118, from = Math.max(0, Math.floor(this.box.scrollLeft / width) - 1), to = Math.min(this.columns.length, from + Math.ceil(this.box.clientWidth / width) + 3);
    const first = Math.max(0, Math.floor(this.box.scrollTop / HEIGHT) - MORE), last = Math.min(this.rows, first + Math.ceil(this.box.clientHeight / HEIGHT) + 2 * MORE);
    const [top, bottom] = [this.from[0], this.at[0]].sort((a, b) => a - b), [left, right] = [this.from[1], this.at[1]].sort((a, b) => a - b);
    const rows = [];
    for (let row = first; row < last; row += 1) {
      const line = make("div", { className: `row${this.isNow?.(row) ? " now" : ""}`, role: "row", "aria-rowindex": row + 2 });
      line.style.top = `${row * HEIGHT}px`;
      const [number, date] = this.side(row);
      line.append(make("div", { className: "cell side", role: "rowheader" }, make("b", {}, number), date));
      if (from) { const gap = make("div", { className: "gap", role: "presentation" }); gap.style.width = `${from * width}px`; line.append(gap); }
      for (let column = from; column < to; column += 1) {
        const { text, look = "", title } = this.cell(row, column);
        const isAt = row === this.at[0] && column === this.at[1], isIn = row >= top && row <= bottom && column >= left && column <= right && (top !== bottom || left !== right);
        const cell = make("div", { className: `cell ${look}${isIn ? " in" : ""}${isAt ? " at" : ""}`, role: "gridcell", "aria-colindex": column + 2, title: title || null }, text);
        if (/\bwrong\b/.test(look)) cell.setAttribute("aria-invalid", "true");
        if (/\blocked\b/.test(look)) cell.setAttribute("aria-readonly", "true");
        cell.dataset.row = row;
        cell.dataset.column = column;
        if (isAt) { cell.id = this.id; cell.setAttribute("aria-selected", "true"); }
        line.append(cell);
      }
      rows.push(line);
    }
    this.lines.replaceChildren(...rows);
    if (document.getElementById(this.id)) this.box.setAttribute("aria-activedescendant", this.id);
    else this.box.removeAttribute("aria-activedescendant");
  }

  placeOf(event) {
    const cell = event.target.closest?.(".cell[data-row]");
    return cell ? [Number(cell.dataset.row), Number(cell.dataset.column)] : null;
  }

  press(event) {
    const place = this.placeOf(event);
    if (!place) return;
    if (this.input) this.commit();
    this.isDragged = true;
    this.go(place, event.shiftKey);
    this.box.focus({ preventScroll: true });
    event.preventDefault();
  }

  go([row, column], isMore = false, isQuiet = false) {
    this.at = [Math.max(0, Math.min(this.rows - 1, row)), Math.max(0, Math.min(this.columns.length - 1, column))];
    if (!isMore) this.from = this.at;
    const top = this.at[0] * HEIGHT, seen = this.box.clientHeight - this.head.offsetHeight - 16;
    if (top < this.box.scrollTop) this.box.scrollTop = top;
    else if (top + HEIGHT > this.box.scrollTop + seen) this.box.scrollTop = top + HEIGHT - seen;
    const cell = this.head.children[this.at[1] + 1], side = this.head.children[0]?.offsetWidth || 0;
    if (cell) {
      if (cell.offsetLeft - side < this.box.scrollLeft) this.box.scrollLeft = cell.offsetLeft - side;
      else if (cell.offsetLeft + cell.offsetWidth > this.box.scrollLeft + this.box.clientWidth) this.box.scrollLeft = cell.offsetLeft + cell.offsetWidth - this.box.clientWidth;
    }
    this.draw();
    if (!isQuiet) this.onChoose?.(...this.at);
  }

  key(event) {
    if (event.target !== this.box) return;
    const page = Math.max(1, Math.floor(this.box.clientHeight / HEIGHT) - 2), [row, column] = this.at;
    const move = { ArrowUp: [-1, 0], ArrowDown: [1, 0], ArrowLeft: [0, -1], ArrowRight: [0, 1], PageUp: [-page, 0], PageDown: [page, 0] }[event.key];
    if (move && !event.altKey) this.go(event.ctrlKey ? [row + move[0] * 1e6, column + move[1] * 1e6] : [row + move[0], column + move[1]], event.shiftKey);
    else if (event.key === "Home") this.go([event.ctrlKey ? 0 : row, 0], event.shiftKey);
    else if (event.key === "End") this.go([event.ctrlKey ? this.rows - 1 : row, this.columns.length - 1], event.shiftKey);
    else if (!this.onPut) return;
    else if (event.key === "Delete" || event.key === "Backspace") this.put(this.range().map(([one, other]) => [one, other, ""]));
    else if (event.key === "F2" || event.key === "Enter") this.edit();
    else if (event.ctrlKey && event.key.toLowerCase() === "d") this.put(this.range().map(([one, other]) => [one, other, this.textOf(Math.min(this.from[0], this.at[0]), other)]));
    else if (event.ctrlKey && event.key.toLowerCase() === "a") { this.from = [0, 0]; this.go([this.rows - 1, this.columns.length - 1], true, true); }
    else if (event.key.length === 1 && !event.ctrlKey && !event.metaKey && !event.altKey) this.edit(event.key);
    else return;
    event.preventDefault();
  }

  range() {
    const [top, bottom] = [this.from[0], this.at[0]].sort((a, b) => a - b), [left, right] = [this.from[1], this.at[1]].sort((a, b) => a - b), all = [];
    for (let row = top; row <= bottom; row += 1) for (let column = left; column <= right; column += 1) all.push([row, column]);
    return all;
  }

  put(cells) {
    this.onPut(cells.filter(([row, column]) => this.columns[column].isEdited));
  }

  edit(text) {
    const [row, column] = this.at;
    if (!this.onPut || !this.columns[column]?.isEdited || this.input) return;
    this.began = this.textOf(row, column);
    this.input = make("input", { className: "cellinput", value: text ?? this.began, "aria-label": `${this.columns[column].head}, step ${row + 1}` });
    const head = this.head.children[column + 1];
    Object.assign(this.input.style, { top: `${row * HEIGHT}px`, left: `${head.offsetLeft}px`, width: `${head.offsetWidth}px` });
    this.input.addEventListener("keydown", (event) => {
      const move = { Enter: event.shiftKey ? [-1, 0] : [1, 0], Tab: [0, event.shiftKey ? -1 : 1] }[event.key];
      if (event.key === "Escape") { this.close(); event.stopPropagation(); } else if (move) { this.commit(); this.go([row + move[0], column + move[1]]); } else return;
      event.preventDefault();
    });
    this.input.addEventListener("blur", () => this.commit());
    this.layer.append(this.input);
    this.input.focus();
    if (text === undefined) this.input.select();
  }

  close() {
    const input = this.input;
    this.input = null;
    input?.remove();
    this.box.focus({ preventScroll: true });
  }

  commit() {
    if (!this.input) return;
    const text = this.input.value, [row, column] = this.at;
    this.close();
    if (text !== this.began) this.put([[row, column, text]]);
  }

  copy(event) {
    if (event.target !== this.box) return;
    const rows = new Map();
    for (const [row, column] of this.range()) rows.set(row, [...(rows.get(row) || []), this.textOf(row, column)]);
    event.clipboardData.setData("text/plain", [...rows.values()].map((one) => one.join("\t")).join("\n"));
    event.preventDefault();
  }

  paste(event) {
    if (event.target !== this.box || !this.onPut) return;
    event.preventDefault();
    this.pasted(event.clipboardData.getData("text/plain"));
  }

  // Puts a table from the chosen cell on; one value goes to all chosen cells.
  pasted(text) {
    const table = text.replace(/\r\n?/g, "\n").replace(/\n$/, "").split("\n").map((line) => line.split("\t"));
    const chosen = this.range(), [top, left] = chosen[0];
    if (table.length === 1 && table[0].length === 1) { this.put(chosen.map(([row, column]) => [row, column, table[0][0]])); return; }
    const cells = [];
    table.forEach((line, down) => line.forEach((one, across) => {
      if (top + down < this.rows && left + across < this.columns.length) cells.push([top + down, left + across, one]);
    }));
    this.from = [top, left];
    this.at = [Math.min(this.rows, top + table.length) - 1, Math.min(this.columns.length, left + table[0].length) - 1];
    this.put(cells);
  }
}
