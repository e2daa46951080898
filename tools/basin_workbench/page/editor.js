// A text with numbered lines, in colours, and with remarks at their places.
const WORDS = "RULE ENDRULE FUNCTION ENDFUNCTION IS IF THEN ELSE ENDIF WITH DO ENDWITH LET IN ENDLET FOR ENDFOR MAP ENDMAP AND OR NOT TRUE FALSE KNOWN APPEND ITEM LENGTH MONTH DAY YEAR StorageToElevation ElevationToStorage NUMERIC BOOLEAN DATETIME SLOT LIST OF Min Max Clamp Abs";
const RULES = new RegExp(`(#.*)|("[^"]*"?)|\\b(${WORDS.split(" ").join("|")})\\b|\\b([0-9][0-9_]*)\\b`, "g");
const TOML = /(#.*)|("[^"]*"?)|(^\s*\[+[^\]]*\]+|\b(?:true|false)\b|^\s*[\w-]+(?=\s*=))|\b([0-9][0-9_]*)\b/g;
const HEIGHT = 19, MOST = 6000;

export class Editor {
  constructor(host, { label, isToml, describedBy, onType }) {
    this.pattern = isToml ? TOML : RULES;
    this.area = make("textarea", { "aria-label": label, wrap: "off", "aria-describedby": describedBy });
    this.area.spellcheck = false;
    this.area.setAttribute("autocapitalize", "off");
    this.code = make("pre", { "aria-hidden": "true" });
    this.numbers = make("div", {});
    host.replaceChildren(make("div", { className: "editor" }, make("div", { className: "gutter", "aria-hidden": "true" }, this.numbers), make("div", { className: "stack" }, this.code, this.area)));
    this.remarks = [];
    this.area.addEventListener("input", () => { this.remarks = []; this.draw(); onType(this.area.value); });
    this.area.addEventListener("scroll", () => this.follow());
    new ResizeObserver(() => { if (!this.isDrawn) this.draw(); }).observe(this.area);
  }

  get text() { return this.area.value; }

  show(text) {
    if (text !== this.area.value) {
      const [from, to, top] = [this.area.selectionStart, this.area.selectionEnd, this.area.scrollTop], isAt = document.activeElement === this.area;
      this.area.value = text;
      if (isAt) this.area.setSelectionRange(Math.min(from, text.length), Math.min(to, text.length));
      this.area.scrollTop = top;
      this.remarks = [];
    }
    this.draw();
  }

  remark(remarks) {
    if (!remarks.length && !this.remarks.length) return;
    this.remarks = remarks;
    this.area.setAttribute("aria-invalid", String(remarks.some((one) => one.sort === "fault")));
    this.draw();
  }

  follow() {
    if (!this.isDrawn) return;
    this.code.style.transform = `translate(${-this.area.scrollLeft}px, ${-this.area.scrollTop}px)`;
    this.numbers.style.transform = `translateY(${-this.area.scrollTop}px)`;
  }

  draw() {
    this.isDrawn = this.area.clientHeight > 0;
    if (!this.isDrawn) return;
    const lines = this.area.value.split("\n"), rows = [], numbers = [];
    lines.forEach((text, at) => {
      const mine = this.remarks.filter((one) => one.line === at + 1), row = make("span", { className: `line ${mine[0]?.sort || ""}` });
      const pieces = at < MOST ? piecesOf(text, this.pattern) : [["", text]], { from = -1, to = -1 } = mine[0] || {};
      let place = 0;
      for (const [look, piece] of pieces) {
        for (const [cut, isMarked] of cutOf(piece, from - place, to - place)) {
          const part = look ? make("span", { className: look }, cut) : cut;
          row.append(isMarked ? make("u", {}, part) : part);
        }
        place += piece.length;
      }
      if (!text) row.append(" ");
      if (mine.length) row.append(make("span", { className: "says" }, mine[0].says));
      rows.push(row);
      numbers.push(make("span", { className: mine[0]?.sort || "" }, String(at + 1)));
    });
    this.code.replaceChildren(...rows);
    this.numbers.replaceChildren(...numbers);
    this.follow();
  }

  // Goes to a line, with the keys where `isFocus` says so.
  go(line, from = 0, isFocus = true) {
    const lines = this.area.value.split("\n").slice(0, line - 1), place = lines.join("\n").length + (line > 1 ? 1 : 0) + from;
    if (isFocus) { this.area.focus(); this.area.setSelectionRange(place, place); }
    this.area.scrollTop = Math.max(0, (line - 4) * HEIGHT);
    this.follow();
  }
}

const piecesOf = (text, pattern) => {
  const pieces = [];
  let behind = 0;
  for (const found of text.matchAll(pattern)) {
    pieces.push(["", text.slice(behind, found.index)], [found[1] ? "c" : found[2] ? "s" : found[3] ? "k" : "n", found[0]]);
    behind = found.index + found[0].length;
  }
  return [...pieces, ["", text.slice(behind)]].filter(([, piece]) => piece);
};
const cutOf = (piece, from, to) => {
  if (to <= 0 || from >= piece.length || from >= to) return [[piece, false]];
  const [begin, end] = [Math.max(0, from), Math.min(piece.length, to)];
  return [[piece.slice(0, begin), false], [piece.slice(begin, end), true], [piece.slice(end), false]].filter(([text]) => text);
};
