// The map: nodes by what they are, over the ground of `map_ground`. `map_input` has mouse and keyboard. Tested, not proved.
import { dressed, percent, s } from "./dom.js";
import { Ground } from "./map_ground.js";
import { placedLabels } from "./map_labels.js";

/** @typedef {import("./types.js").Plan} Plan */
/** @typedef {import("./types.js").Row} Row */
/** @typedef {{ share: number | null, wanted: number }} Grade what part of a node's packets comes, the least of its streams */
/**
 * @typedef {{ plan: Plan, pairs: import("./links.js").Pair[], grades: Map<string, Grade>, selected: string[], floor: number, threshold: number,
 *   picture: HTMLImageElement | null, moving: Set<string>, version: number }} Shown `moving` are nodes that are dragged, and `version` is another one
 *   where links between others are
 */

const LETTER = 7.1, MARGIN = 46, TOP = 60;
const SCALES = [0.1, 0.2, 0.5, 1, 2, 5, 10, 20, 50, 100, 200, 500, 1000];

/** What a node is: host, backup, candidate, mains or battery.
 * @param {Plan} plan @param {Row} node */
export function kindOf(plan, node) {
  const host = plan.host.find((one) => one.node === node.name);
  return host ? (host.rank === 0 ? "host" : "backup") : node.candidate ? "candidate" : node.powered === "mains" ? "mains" : "battery";
}

/** How a share is called by its colour.
 * @param {Grade | undefined} grade */
export function gradeOf(grade) {
  if (!grade || grade.share === null) return "none";
  return grade.share >= grade.wanted ? "good" : grade.share >= grade.wanted - 0.1 ? "fair" : "bad";
}

/** The symbol of a kind, about 0, 0.
 * @param {string} kind */
function symbol(kind) {
  if (kind === "host") return s("path", { class: "symbol", d: "M0,-11 L10,-3 L6.5,9 L-6.5,9 L-10,-3 Z" });
  if (kind === "backup") return s("rect", { class: "symbol", x: -8, y: -8, width: 16, height: 16, rx: 2 });
  return s("circle", { class: "symbol", r: kind === "mains" ? 8 : 7.5 });
}

/** @param {HTMLElement} place @returns {[number, number]} in pixels */
function sizeOf(place) {
  return [place.clientWidth || 600, place.clientHeight || 400];
}

export class MapView {
  /** @param {HTMLElement} place */
  constructor(place) {
    this.ground = new Ground(place);
    this.nodes = s("g");
    this.over = s("g", { class: "flood" });
    const arrow = s(
      "defs", {},
      s(
        "marker", { id: "arrow", viewBox: "0 0 8 8", refX: 7, refY: 4, markerWidth: 6, markerHeight: 6, orient: "auto" },
        s("path", { d: "M0,0 L8,4 L0,8 Z" }),
      ),
    );
    this.band = s("rect", { class: "band", hidden: "" });
    this.scale = s("g", { class: "scale", "aria-hidden": "true" });
    this.svg = s(
      "svg",
      {
        tabindex: 0, role: "application", id: "map", "aria-roledescription": "map",
        "aria-label": "Map of the nodes. Arrow keys move what is selected, or the map; n and p go to the next and previous node.",
      },
      arrow, this.band, this.over, this.nodes, this.scale,
    );
    place.append(this.svg);
    this.place = place;
    this.size = sizeOf(place);
    this.centre = [0, 0];
    this.zoom = 10;
    this.isFitted = false;
    /** @type {Shown | null} */
    this.shown = null;
    /** @type {Map<string, SVGElement>} */
    this.marks = new Map();
    /** @type {WeakMap<SVGElement, string>} how each mark looks now */
    this.looks = new WeakMap();
    /** @type {{ senders: string[], heard: string[][], lost: string[][] } | null} what a step of a flood does */
    this.flood = null;
    new ResizeObserver(() => {
      this.size = sizeOf(place);
      if (!this.isFitted && this.shown) this.fit();
      this.draw();
    }).observe(place);
  }

  /** Metres in pixels of the map.
   * @param {number} x @param {number} y @returns {[number, number]} */
  toPixels(x, y) {
    const [width, height] = this.size;
    return [(x - this.centre[0]) * this.zoom + width / 2, height / 2 - (y - this.centre[1]) * this.zoom];
  }

  /** Pixels of the map in metres.
   * @param {number} x @param {number} y @returns {[number, number]} */
  toMetres(x, y) {
    const [width, height] = this.size;
    return [(x - width / 2) / this.zoom + this.centre[0], (height / 2 - y) / this.zoom + this.centre[1]];
  }

  /** Shows the whole plan. */
  fit() {
    const { plan } = /** @type {Shown} */ (this.shown), [width, height] = this.size;
    const placed = plan.node.filter((node) => node.x !== null);
    const xs = placed.map((node) => node.x), ys = placed.map((node) => node.y), box = plan.floor.extent;
    if (box) {
      xs.push(box[0], box[2]);
      ys.push(box[1], box[3]);
    }
    const [left, right, low, high] = xs.length ? [Math.min(...xs), Math.max(...xs), Math.min(...ys), Math.max(...ys)] : [0, 60, 0, 40];
    this.centre = [(left + right) / 2, (low + high) / 2];
    this.zoom = Math.max(0.02, Math.min(400, (width - 2 * MARGIN) / Math.max(1, right - left), (height - MARGIN - TOP) / Math.max(1, high - low)));
    this.centre[1] += (TOP - MARGIN) / 2 / this.zoom;
    this.isFitted = true;
    this.draw();
  }

  /** Nearer or farther, with one point of the map in its place.
   * @param {number} factor @param {number} [x] in pixels @param {number} [y] */
  zoomBy(factor, x = this.size[0] / 2, y = this.size[1] / 2) {
    const [before, above] = this.toMetres(x, y);
    this.zoom = Math.max(0.02, Math.min(2000, this.zoom * factor));
    const [after, beyond] = this.toMetres(x, y);
    this.centre = [this.centre[0] + before - after, this.centre[1] + above - beyond];
    this.draw();
  }

  /** @param {number} dx in pixels @param {number} dy */
  pan(dx, dy) {
    this.centre = [this.centre[0] - dx / this.zoom, this.centre[1] + dy / this.zoom];
    this.draw();
  }

  /** @param {Shown} shown */
  show(shown) {
    this.shown = shown;
    if (!this.isFitted) this.fit();
    else this.draw();
  }

  draw() {
    if (!this.shown) return;
    this.ground.draw(this, this.shown);
    this.place.dataset.nodes = String(this.shown.plan.node.length);
    this.drawNodes(this.shown);
    this.drawFlood(this.shown);
    this.drawScale();
  }

  /** Where the nodes of the floor are, in pixels.
   * @param {Shown} shown @returns {Map<string, [number, number]>} */
  placesOf(shown) {
    return new Map(shown.plan.node.filter((node) => node.floor === shown.floor && node.x !== null).map((node) => [node.name, this.toPixels(node.x, node.y)]));
  }

  /** @param {Shown} shown */
  drawNodes(shown) {
    const there = shown.plan.node.filter((node) => node.floor === shown.floor && node.x !== null);
    const wanted = there.map((node) => {
      const [x, y] = this.toPixels(node.x, node.y), kind = kindOf(shown.plan, node), grade = shown.grades.get(node.name);
      const label = grade && grade.share !== null ? `${node.name} ${percent(grade.share)}` : node.name;
      return { node, name: node.name, x, y, kind, grade, label, width: LETTER * label.length, first: shown.selected.includes(node.name) || kind === "host" };
    });
    const labels = placedLabels(wanted, ...this.size);
    for (const [name, mark] of this.marks) {
      if (there.some((node) => node.name === name)) continue;
      mark.remove();
      this.marks.delete(name);
    }
    for (const one of wanted) this.mark(one, labels.get(one.name), shown);
  }

  /** @param {any} one @param {import("./map_labels.js").Placed | undefined} label @param {Shown} shown */
  mark(one, label, shown) {
    let mark = this.marks.get(one.name);
    if (!mark || mark.dataset.kind !== one.kind) {
      mark?.remove();
      mark = s(
        "g", { tabindex: -1, role: "button", "data-name": one.name, "data-kind": one.kind }, s("circle", { class: "ring", r: 13 }), symbol(one.kind),
        s("text", {}), s("title"),
      );
      this.marks.set(one.name, mark);
      this.nodes.append(mark);
    }
    const isChosen = shown.selected.includes(one.name), grade = gradeOf(one.grade);
    const said = `${one.name}, ${one.kind}${one.grade && one.grade.share !== null ? `, ${percent(one.grade.share)} of its packets come` : ""}`;
    // Most nodes stay as they are while one is dragged.
    const look = [one.x.toFixed(1), one.y.toFixed(1), said, grade, isChosen, label?.x, label?.y, label?.anchor].join(" ");
    if (this.looks.get(mark) === look) return;
    this.looks.set(mark, look);
    dressed(
      mark,
      {
        class: `node ${one.kind} ${grade}${isChosen ? " chosen" : ""}`, transform: `translate(${one.x.toFixed(1)},${one.y.toFixed(1)})`,
        "aria-label": said, "aria-pressed": String(isChosen),
      },
    );
    const [, , text, title] = mark.children;
    title.textContent = `${said}, at ${one.node.x} m, ${one.node.y} m`;
    text.textContent = label ? one.label : "";
    if (label) dressed(text, { x: (label.x - one.x).toFixed(1), y: (label.y - one.y).toFixed(1), "text-anchor": label.anchor });
  }

  /** The step of a flood that is looked at: what is received, and what is lost.
   * @param {Shown} shown */
  drawFlood(shown) {
    const { flood } = this, places = flood ? this.placesOf(shown) : new Map();
    const line = (/** @type {string} */ kind) => (/** @type {string[]} */ [from, to]) => {
      const one = places.get(from), other = places.get(to);
      if (!one || !other) return null;
      const far = Math.hypot(other[0] - one[0], other[1] - one[1]) || 1, part = Math.max(0, 1 - 16 / far);
      return s(
        "line",
        {
          class: kind, x1: one[0], y1: one[1], x2: one[0] + part * (other[0] - one[0]), y2: one[1] + part * (other[1] - one[1]),
          "marker-end": kind === "heard" ? "url(#arrow)" : null,
        },
      );
    };
    this.svg.classList.toggle("playing", Boolean(flood));
    const drawn = flood ? [...flood.lost.map(line("lost")), ...flood.heard.map(line("heard")), ...flood.senders.map((name) => {
      const place = places.get(name);
      return place ? s("circle", { class: "sender", cx: place[0], cy: place[1], r: 15 }) : null;
    })] : [];
    this.over.replaceChildren(.../** @type {SVGElement[]} */ (drawn.filter((one) => one !== null)));
  }

  drawScale() {
    const [, height] = this.size;
    const metres = SCALES.find((one) => one * this.zoom >= 60) ?? 1000, length = metres * this.zoom;
    this.scale.replaceChildren(
      s("path", { d: `M14,${height - 20} v6 h${length.toFixed(1)} v-6` }),
      s("text", { x: 14 + length / 2, y: height - 22, "text-anchor": "middle" }, `${metres} m`),
    );
  }
}
