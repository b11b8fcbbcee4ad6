// What lies below the nodes of the map: floor plan, walls, and links by their ratio. It is on two canvases: what stays while nodes are dragged is
// drawn once, and each frame has the links of these nodes alone. Tested, not proved.
import { h } from "./dom.js";

/** @typedef {import("./map.js").MapView} MapView */
/** @typedef {import("./map.js").Shown} Shown */
/** @typedef {import("./links.js").Pair} Pair */

// More links than these have no dashes.
const DASHED_MOST = 150;

export class Ground {
  /** @param {HTMLElement} place */
  constructor(place) {
    const canvas = () => /** @type {HTMLCanvasElement} */ (h("canvas", { "aria-hidden": "true" }));
    this.still = canvas();
    this.moving = canvas();
    this.place = place;
    place.append(this.still, this.moving);
    /** @type {any[]} what the first canvas was drawn of */
    this.drawn = [];
    // How many links there were then.
    this.count = 0;
    this.colours = { line: "", link: "", wall: "" };
  }

  /** @param {MapView} map @param {Shown} shown */
  draw(map, shown) {
    const now = sheetOf(map, shown), chosen = new Set(shown.selected);
    const isOfMoving = (/** @type {Pair} */ pair) => shown.moving.has(pair.from) || shown.moving.has(pair.to);
    const seen = shown.pairs.filter((pair) => pair.most >= shown.threshold);
    if (now.some((one, place) => one !== this.drawn[place])) {
      this.drawn = now;
      this.takeColours();
      this.count = seen.length;
      const pen = penOf(this.still, map.size);
      this.drawFloor(pen, map, shown);
      this.drawLinks(pen, map, shown, seen.filter((pair) => !isOfMoving(pair)), chosen);
      this.drawWalls(pen, map, shown);
    }
    this.moving.hidden = !shown.moving.size;
    if (shown.moving.size) this.drawLinks(penOf(this.moving, map.size), map, shown, seen.filter(isOfMoving), chosen);
  }

  takeColours() {
    const style = getComputedStyle(this.place);
    const [line, link, wall] = ["--line", "--link", "--wall"].map((name) => style.getPropertyValue(name));
    this.colours = { line, link, wall };
  }

  /** @param {CanvasRenderingContext2D} pen @param {MapView} map @param {Shown} shown */
  drawFloor(pen, map, shown) {
    const box = shown.plan.floor.extent;
    if (!box) return;
    const [left, top] = map.toPixels(box[0], box[3]), [right, bottom] = map.toPixels(box[2], box[1]);
    if (shown.picture) pen.drawImage(shown.picture, left, top, right - left, bottom - top);
    pen.strokeStyle = this.colours.line;
    pen.lineWidth = 1;
    pen.strokeRect(left, top, right - left, bottom - top);
  }

  /** Both directions of a pair are one line, by the worse. Lines are stroked one by one: a path of hundreds takes many times as long.
   * @param {CanvasRenderingContext2D} pen @param {MapView} map @param {Shown} shown @param {Pair[]} pairs @param {Set<string>} chosen */
  drawLinks(pen, map, shown, pairs, chosen) {
    const places = map.placesOf(shown), none = /** @type {[number, number]} */ ([0, 0]);
    // Many links are pale, so that nodes and names stand out, and without dashes, which take long.
    const pale = Math.min(1, 14 / Math.sqrt(1 + this.count)), isDashed = this.count <= DASHED_MOST;
    pen.strokeStyle = this.colours.link;
    for (const { from, to, least } of pairs) {
      if (!places.has(from) || !places.has(to)) continue;
      const isChosen = chosen.has(from) || chosen.has(to);
      pen.globalAlpha = Math.max(0.15, least) * (isChosen ? 1 : 0.5 * pale);
      pen.lineWidth = isDashed || isChosen ? (isChosen ? 1.2 : 0.6) + 1.6 * least : 1;
      if (isDashed) pen.setLineDash(least < 0.5 ? [3, 5] : least < 0.9 ? [9, 4] : []);
      pen.beginPath();
      pen.moveTo(...(places.get(from) ?? none));
      pen.lineTo(...(places.get(to) ?? none));
      pen.stroke();
    }
    pen.setLineDash([]);
    pen.globalAlpha = 1;
  }

  /** @param {CanvasRenderingContext2D} pen @param {MapView} map @param {Shown} shown */
  drawWalls(pen, map, shown) {
    pen.strokeStyle = this.colours.wall;
    pen.lineWidth = 4;
    for (const wall of shown.plan.losses.walls) {
      if (wall[5] !== undefined && wall[5] !== shown.floor) continue;
      pen.beginPath();
      pen.moveTo(...map.toPixels(wall[0], wall[1]));
      pen.lineTo(...map.toPixels(wall[2], wall[3]));
      pen.stroke();
    }
  }
}

/** All that the first canvas depends on; while nodes are dragged their places do not matter to it.
 * @param {MapView} map @param {Shown} shown @returns {any[]} */
function sheetOf(map, shown) {
  const isDragged = shown.moving.size > 0;
  return [
    ...map.size, ...map.centre, map.zoom,
    window.devicePixelRatio, window.matchMedia("(prefers-color-scheme: dark)").matches, shown.floor, shown.threshold, shown.picture, shown.selected.join("\n"),
    [...shown.moving].join("\n"), isDragged ? shown.version : shown.pairs, isDragged ? null : shown.plan,
  ];
}

/** What draws on a canvas, which is empty then.
 * @param {HTMLCanvasElement} canvas @param {[number, number]} size */
function penOf(canvas, [width, height]) {
  const ratio = window.devicePixelRatio || 1, pen = /** @type {CanvasRenderingContext2D} */ (canvas.getContext("2d"));
  if (canvas.width !== Math.round(width * ratio) || canvas.height !== Math.round(height * ratio)) {
    [canvas.width, canvas.height] = [Math.round(width * ratio), Math.round(height * ratio)];
  }
  pen.setTransform(ratio, 0, 0, ratio, 0, 0);
  pen.clearRect(0, 0, width, height);
  return pen;
}
