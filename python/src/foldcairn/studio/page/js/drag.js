// Nodes that are dragged: the map follows in each frame, and the engine draws their place as often as it can. Tested, not proved.
import { moved } from "./edits.js";

/** @typedef {import("./types.js").Plan} Plan */

export class Drag {
  /** @param {import("./page.js").Page} page */
  constructor(page) {
    this.page = page;
    /** @type {Plan | null} the plan with the nodes where they are; null while nothing is dragged */
    this.plan = null;
    this.isFramed = false;
  }

  /** @param {number} dx in metres @param {number} dy */
  move(dx, dy) {
    const { plan, selected } = this.page.store.state;
    this.plan = moved(plan, selected, dx, dy);
    if (this.isFramed) return;
    this.isFramed = true;
    requestAnimationFrame(() => {
      this.isFramed = false;
      if (!this.plan) return;
      this.draw();
      this.page.showMap(this.plan);
    });
  }

  /** Asks for draws of where the nodes are, unless the first ones of an earlier place are under way. */
  draw() {
    const { engine, found } = this.page;
    if (this.plan && this.plan !== found?.plan && engine?.isReady) this.page.draw(this.plan, true);
  }

  /** @param {number} dx @param {number} dy */
  drop(dx, dy) {
    const { plan, selected } = this.page.store.state, last = this.plan, next = moved(plan, selected, dx, dy);
    this.plan = null;
    // Mostly the mouse has been there already, and what was drawn of the place counts.
    this.page.store.change(last && isSamePlace(last, next) ? last : next, `${selected.join(", ")} moved`);
  }
}

/** Whether all nodes are at the same places in two plans that do not differ otherwise.
 * @param {Plan} one @param {Plan} other */
function isSamePlace(one, other) {
  return one.node.every((node, place) => node.x === other.node[place].x && node.y === other.node[place].y);
}
