// The picture of the network, in which objects are chosen, and two of them linked.
export class Map_ {
  constructor(box, onChoose) {
    Object.assign(this, { box, onChoose, nodes: new Map(), zoom: 1 });
  }

  show(text, things) {
    const picture = new DOMParser().parseFromString(text, "image/svg+xml").documentElement;
    if (picture.localName !== "svg") return;
    const svg = document.importNode(picture, true);
    this.natural = svg.viewBox.baseVal.width;
    svg.removeAttribute("width");
    svg.removeAttribute("height");
    svg.setAttribute("role", "group");
    svg.setAttribute("aria-label", "The network: choose an object");
    this.nodes = new Map();
    for (const node of svg.querySelectorAll("g.node")) {
      const title = node.querySelector("title"), name = title.textContent, thing = things.find((one) => one.name === name);
      title.remove();
      for (const [key, value] of Object.entries({ role: "button", tabindex: -1, "aria-label": `${name}, ${thing?.kind || ""}` })) node.setAttribute(key, value);
      node.addEventListener("click", () => this.onChoose(name));
      node.addEventListener("keydown", (event) => this.key(event, name));
      this.nodes.set(name, node);
    }
    for (const title of svg.querySelectorAll("title")) title.remove();
    this.box.replaceChildren(svg);
    this.size();
    this.corners = new Map([...this.nodes].map(([name, node]) => { const box = node.querySelector("polygon, ellipse, path").getBBox(); return [name, [box.x + box.width - 3, box.y + 4]]; }));
  }

  // A list where Graphviz isn't there.
  list(things) {
    this.nodes = new Map();
    const rows = things.map((thing) => {
      const button = make("button", { type: "button" }, thing.name);
      button.addEventListener("click", () => this.onChoose(thing.name));
      this.nodes.set(thing.name, button);
      return make("li", {}, button);
    });
    this.box.replaceChildren(make("ul", {}, ...rows));
  }

  size() {
    const svg = this.box.querySelector("svg");
    if (!svg) return;
    const wide = Math.max(this.box.clientWidth - 2, 0), base = Math.min(wide, this.natural * 1.34);
    const least = Math.min(this.natural, base < this.natural * 0.5 ? this.natural * 0.5 : base);
    svg.style.width = `${Math.max(base, least) * this.zoom}px`;
  }

  larger(by) {
    this.zoom = Math.max(0.2, Math.min(6, this.zoom * by));
    this.size();
  }

  // Arrows go to the node that lies nearest in that direction.
  key(event, name) {
    if (event.key === "Enter" || event.key === " ") { event.preventDefault(); this.onChoose(name); return; }
    const way = { ArrowUp: [0, -1], ArrowDown: [0, 1], ArrowLeft: [-1, 0], ArrowRight: [1, 0] }[event.key];
    if (!way) return;
    event.preventDefault();
    const middle = (node) => { const box = node.getBoundingClientRect(); return [box.left + box.width / 2, box.top + box.height / 2]; };
    const [x, y] = middle(this.nodes.get(name));
    let best = null, least = Infinity;
    for (const [other, node] of this.nodes) {
      const [u, v] = middle(node), along = (u - x) * way[0] + (v - y) * way[1], aside = Math.abs((u - x) * way[1]) + Math.abs((v - y) * way[0]);
      if (along > 4 && along + 2.5 * aside < least) [best, least] = [other, along + 2.5 * aside];
    }
    if (best) { this.onChoose(best); this.nodes.get(best).focus(); }
  }

  mark({ chosen: name, first, broken, differs }) {
    for (const [one, node] of this.nodes) {
      node.classList.toggle("chosen", one === name);
      node.classList.toggle("first", one === first);
      node.classList.toggle("broken", one === broken);
      node.setAttribute("aria-pressed", one === name);
      node.setAttribute("tabindex", one === name ? 0 : -1);
      node.querySelector(".badge")?.remove();
      const count = differs.get(one), kind = node.getAttribute("aria-label")?.split(";")[0];
      if (kind) node.setAttribute("aria-label", count ? `${kind}; ${count} cells differ` : kind);
      const corner = this.corners?.get(one);
      if (count && corner && node.localName === "g") node.append(drawn("circle", { class: "badge", cx: corner[0], cy: corner[1], r: 6 }));
    }
    const node = this.nodes.get(name);
    if (node) {
      const box = this.box.getBoundingClientRect(), mine = node.getBoundingClientRect();
      if (mine.top < box.top || mine.bottom > box.bottom) this.box.scrollTop += mine.top - box.top - box.height / 3;
      if (mine.left < box.left || mine.right > box.right) this.box.scrollLeft += mine.left - box.left - box.width / 3;
    }
  }
}
