// The state of the page: one plan after another, of which the last ones can be undone, and what is looked at. Tested, not proved.

/** @typedef {import("./types.js").Plan} Plan */
/** @typedef {import("./types.js").Row} Row */
/**
 * @typedef {{ plan: Plan, done: string, selected: string[], floor: number, threshold: number, tab: string, message: string, isBad: boolean,
 *   kept: { name: string, plan: Plan }[] }} State
 */

// So many plans can be undone.
const UNDO_MOST = 200;

export class Store {
  /** @param {Plan} plan */
  constructor(plan) {
    /** @type {State} */
    this.state = { plan, done: "", selected: [], floor: firstFloor(plan), threshold: 0.5, tab: "answers", message: "", isBad: false, kept: [] };
    /** @type {{ plan: Plan, done: string }[]} */
    this.before = [];
    /** @type {{ plan: Plan, done: string }[]} */
    this.after = [];
    /** @type {((state: State, old: State) => void)[]} */
    this.listeners = [];
  }

  /** @param {Partial<State>} given */
  set(given) {
    const old = this.state;
    this.state = { ...old, ...given };
    for (const listener of this.listeners) listener(this.state, old);
  }

  /** Another plan, that can be undone.
   * @param {Plan} plan @param {string} done what was done, in words @param {Partial<State>} [more] */
  change(plan, done, more = {}) {
    this.before = [...this.before, { plan: this.state.plan, done }].slice(-UNDO_MOST);
    this.after = [];
    const names = new Set(plan.node.map((node) => node.name));
    const floors = new Set(plan.node.map((node) => node.floor));
    const floor = floors.has(this.state.floor) || !floors.size ? this.state.floor : firstFloor(plan);
    this.set({ plan, done, floor, selected: this.state.selected.filter((name) => names.has(name)), message: done, isBad: false, ...more });
  }

  undo() {
    const last = this.before.pop();
    if (!last) return;
    this.after.push({ plan: this.state.plan, done: last.done });
    this.turned(last.plan, `Undone: ${last.done}`);
  }

  redo() {
    const next = this.after.pop();
    if (!next) return;
    this.before.push({ plan: this.state.plan, done: next.done });
    this.turned(next.plan, `Done again: ${next.done}`);
  }

  /** @param {Plan} plan @param {string} message */
  turned(plan, message) {
    const names = new Set(plan.node.map((node) => node.name));
    this.set({ plan, message, isBad: false, selected: this.state.selected.filter((name) => names.has(name)) });
  }
}

/** @param {Plan} plan */
export function firstFloor(plan) {
  return plan.node.reduce((least, node) => Math.min(least, node.floor), Infinity) === Infinity ? 0 : Math.min(...plan.node.map((node) => node.floor));
}
