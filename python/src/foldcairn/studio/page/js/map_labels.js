// Where the names of nodes stand on the map, so that none covers another one or a node. Tested, not proved.

/** @typedef {{ left: number, top: number, right: number, bottom: number }} Box */
/** @typedef {{ name: string, x: number, y: number, width: number, first: boolean }} Wanted in pixels; those that come first get a place before others */
/** @typedef {{ x: number, y: number, anchor: string }} Placed */

const HEIGHT = 15, AWAY = 16, NODE = 10;
// Where a label may stand, best first: beside, below and above its node.
const SIDES = /** @type {[number, number, string][]} */ ([
  [AWAY, 5, "start"], [0, AWAY + 12, "middle"], [-AWAY, 5, "end"], [0, -AWAY, "middle"], [AWAY - 2, AWAY + 6, "start"], [-AWAY + 2, AWAY + 6, "end"],
  [AWAY - 2, -AWAY + 4, "start"], [-AWAY + 2, -AWAY + 4, "end"],
]);

/**
 * The places of labels; a name that would cover something has none.
 * @param {Wanted[]} nodes
 * @param {number} width of the map
 * @param {number} height
 * @returns {Map<string, Placed>}
 */
export function placedLabels(nodes, width, height) {
  /** @type {Box[]} */
  const taken = nodes.map(({ x, y }) => ({ left: x - NODE, top: y - NODE, right: x + NODE, bottom: y + NODE }));
  const found = new Map();
  for (const one of [...nodes].sort((left, right) => Number(right.first) - Number(left.first))) {
    for (const [dx, dy, anchor] of SIDES) {
      const left = one.x + dx - (anchor === "middle" ? one.width / 2 : anchor === "end" ? one.width : 0), bottom = one.y + dy + 4;
      const box = { left, top: bottom - HEIGHT, right: left + one.width, bottom };
      if (left < 0 || left + one.width > width || bottom > height || box.top < 0) continue;
      if (taken.some((other) => box.left < other.right && other.left < box.right && box.top < other.bottom && other.top < box.bottom)) continue;
      taken.push(box);
      found.set(one.name, { x: one.x + dx, y: one.y + dy, anchor });
      break;
    }
  }
  return found;
}
