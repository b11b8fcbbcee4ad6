// What mouse, fingers and keyboard do on the map. Tested, not proved.

/** @typedef {import("./map.js").MapView} MapView */
/**
 * What the map asks for.
 * @typedef {{ selected: () => string[], select: (names: string[]) => void, drag: (dx: number, dy: number) => void, drop: (dx: number, dy: number) => void,
 *   add: (x: number, y: number) => void, remove: () => void, pick: (name: string) => void }} Asks in metres
 */

const ZOOM = 1.25, CLICK = 4;

export class MapInput {
  /** @param {MapView} map @param {Asks} asks */
  constructor(map, asks) {
    this.map = map;
    this.asks = asks;
    /** @type {Map<number, { x: number, y: number }>} */
    this.fingers = new Map();
    /** @type {{ kind: "node" | "ground" | "band", x: number, y: number, lastX: number, lastY: number, name: string, isFar: boolean } | null} */
    this.held = null;
    const { svg } = map;
    svg.addEventListener("pointerdown", (event) => this.down(/** @type {PointerEvent} */ (event)));
    svg.addEventListener("pointermove", (event) => this.move(/** @type {PointerEvent} */ (event)));
    for (const name of ["pointerup", "pointercancel"]) svg.addEventListener(name, (event) => this.up(/** @type {PointerEvent} */ (event)));
    svg.addEventListener("wheel", (event) => this.wheel(/** @type {WheelEvent} */ (event)), { passive: false });
    svg.addEventListener("dblclick", (event) => {
      const mouse = /** @type {MouseEvent} */ (event);
      if (!this.nameAt(mouse.target)) asks.add(...map.toMetres(...this.at(mouse)));
    });
    svg.addEventListener("keydown", (event) => this.key(/** @type {KeyboardEvent} */ (event)));
  }

  /** @param {MouseEvent} event @returns {[number, number]} in pixels of the map */
  at(event) {
    const box = this.map.svg.getBoundingClientRect();
    return [event.clientX - box.left, event.clientY - box.top];
  }

  /** @param {EventTarget | null} target */
  nameAt(target) {
    return target instanceof Element ? target.closest("[data-name]")?.getAttribute("data-name") ?? "" : "";
  }

  /** @param {PointerEvent} event */
  down(event) {
    if (event.button !== 0) return;
    const [x, y] = this.at(event), name = this.nameAt(event.target);
    this.map.svg.setPointerCapture(event.pointerId);
    this.fingers.set(event.pointerId, { x, y });
    if (this.fingers.size > 1) {
      this.held = null;
      return;
    }
    const chosen = this.asks.selected();
    if (name && event.shiftKey) this.asks.select(chosen.includes(name) ? chosen.filter((one) => one !== name) : [...chosen, name]);
    else if (name && !chosen.includes(name)) this.asks.select([name]);
    this.held = { kind: name ? "node" : event.shiftKey ? "band" : "ground", x, y, lastX: x, lastY: y, name, isFar: false };
    this.map.svg.focus({ preventScroll: true });
  }

  /** @param {PointerEvent} event */
  move(event) {
    const finger = this.fingers.get(event.pointerId);
    if (!finger) return;
    const [x, y] = this.at(event);
    if (this.fingers.size === 2) this.pinch(event.pointerId, x, y);
    this.fingers.set(event.pointerId, { x, y });
    const { held } = this;
    if (!held) return;
    held.isFar ||= Math.hypot(x - held.x, y - held.y) > CLICK;
    if (!held.isFar) return;
    if (held.kind === "ground") this.map.pan(x - held.lastX, y - held.lastY);
    else if (held.kind === "band") this.band(held.x, held.y, x, y);
    else this.asks.drag((x - held.x) / this.map.zoom, (held.y - y) / this.map.zoom);
    [held.lastX, held.lastY] = [x, y];
  }

  /** Two fingers: nearer or farther, and along.
   * @param {number} moved @param {number} x @param {number} y */
  pinch(moved, x, y) {
    const [id, still] = /** @type {[number, { x: number, y: number }]} */ ([...this.fingers].find(([one]) => one !== moved));
    const before = /** @type {{ x: number, y: number }} */ (this.fingers.get(moved));
    if (id === moved) return;
    const apart = Math.hypot(before.x - still.x, before.y - still.y), now = Math.hypot(x - still.x, y - still.y);
    if (apart > 5 && now > 5) this.map.zoomBy(now / apart, (x + still.x) / 2, (y + still.y) / 2);
    this.map.pan((x - before.x) / 2, (y - before.y) / 2);
  }

  /** @param {number} x0 @param {number} y0 @param {number} x1 @param {number} y1 */
  band(x0, y0, x1, y1) {
    const { band } = this.map;
    band.removeAttribute("hidden");
    for (const [name, value] of Object.entries({ x: Math.min(x0, x1), y: Math.min(y0, y1), width: Math.abs(x1 - x0), height: Math.abs(y1 - y0) })) {
      band.setAttribute(name, String(value));
    }
  }

  /** @param {PointerEvent} event */
  up(event) {
    this.fingers.delete(event.pointerId);
    const { held } = this;
    this.held = null;
    if (!held) return;
    const [x, y] = this.at(event);
    if (held.kind === "band") this.choose(held, x, y);
    else if (held.kind === "node" && held.isFar) this.asks.drop((x - held.x) / this.map.zoom, (held.y - y) / this.map.zoom);
    else if (held.kind === "node" && !event.shiftKey) this.asks.pick(held.name);
    else if (held.kind === "ground" && !held.isFar) this.asks.select([]);
  }

  /** Selects what lies in the band.
   * @param {{ x: number, y: number }} held @param {number} x @param {number} y */
  choose(held, x, y) {
    this.map.band.setAttribute("hidden", "");
    const [left, right, top, bottom] = [Math.min(held.x, x), Math.max(held.x, x), Math.min(held.y, y), Math.max(held.y, y)];
    const found = (this.map.shown?.plan.node ?? []).filter((node) => {
      if (node.x === null || node.floor !== this.map.shown?.floor) return false;
      const [across, down] = this.map.toPixels(node.x, node.y);
      return left <= across && across <= right && top <= down && down <= bottom;
    });
    this.asks.select(found.map((node) => node.name));
  }

  /** @param {WheelEvent} event */
  wheel(event) {
    event.preventDefault();
    this.map.zoomBy(Math.exp(-Math.max(-200, Math.min(200, event.deltaY)) / 300), ...this.at(event));
  }

  /** @param {KeyboardEvent} event */
  key(event) {
    if (event.ctrlKey || event.metaKey) {
      if (event.key !== "a") return;
      this.asks.select((this.map.shown?.plan.node ?? []).filter((node) => node.floor === this.map.shown?.floor).map((node) => node.name));
      event.preventDefault();
      return;
    }
    const step = event.shiftKey ? 10 : event.altKey ? 0.1 : 1, chosen = this.asks.selected();
    const arrows = /** @type {Record<string, [number, number]>} */ ({ ArrowLeft: [-1, 0], ArrowRight: [1, 0], ArrowUp: [0, 1], ArrowDown: [0, -1] });
    const arrow = arrows[event.key];
    if (arrow && chosen.length) this.asks.drop(arrow[0] * step, arrow[1] * step);
    else if (arrow) this.map.pan(-arrow[0] * 40, arrow[1] * 40);
    else if (event.key === "+" || event.key === "=") this.map.zoomBy(ZOOM);
    else if (event.key === "-") this.map.zoomBy(1 / ZOOM);
    else if (event.key === "0") this.map.fit();
    else if (event.key === "n" || event.key === "p") this.step(event.key === "n" ? 1 : -1, event.shiftKey);
    else if (event.key === "a") this.asks.add(this.map.centre[0], this.map.centre[1]);
    else if (event.key === "Delete" || event.key === "Backspace") this.asks.remove();
    else if (event.key === "Escape") this.asks.select([]);
    else if (event.key === "Enter" && chosen.length) this.asks.pick(chosen[0]);
    else return;
    event.preventDefault();
  }

  /** Selects the next node by name.
   * @param {number} by @param {boolean} isMore whether to what is selected */
  step(by, isMore) {
    const names = [...this.map.marks.keys()].sort(), chosen = this.asks.selected();
    if (!names.length) return;
    const at = names.indexOf(chosen[chosen.length - 1] ?? "");
    const name = names[(at + by + names.length) % names.length];
    this.asks.select(isMore ? [...new Set([...chosen, name])] : [name]);
  }
}
