// The page: it brings together state, map, engine and panels. Tested, not proved.
import { progressText } from "./answers.js";
import { byId, button, refill } from "./dom.js";
import { Drag } from "./drag.js";
import { withNode, without } from "./edits.js";
import { FEW, isReady, nothingOf } from "./engine.js";
import { gradesOf } from "./figures.js";
import { planOfFiles } from "./files.js";
import { FloodView } from "./flood.js";
import { MeanLinks } from "./links.js";
import { MapInput } from "./map_input.js";
import { MapView } from "./map.js";
import { panelOf } from "./page_panel.js";
import { problemOf } from "./plan_check.js";
import { emptyPlan, readPlan } from "./plan_file.js";
import { PlanError } from "./plan_words.js";
import { Store } from "./state.js";

/** @typedef {import("./types.js").Plan} Plan */
/** @typedef {import("./engine.js").Found} Found */
/** @typedef {{ schema: import("./types.js").Schema, event: any, text: string, name: string, example: string, pictures: Record<string, string> }} Given */

const TABS = /** @type {[string, string][]} */ ([["answers", "Answers"], ["plan", "Plan"], ["compare", "Compare"], ["flood", "Floods"], ["files", "Files"]]);

// How long new draws wait before the panel is made anew, in milliseconds.
const PANEL_WAIT = 250;

export class Page {
  /** @param {Given} given @param {import("./engine.js").Engine | null} engine null where there is no WebAssembly */
  constructor(given, engine) {
    this.given = given;
    this.engine = engine;
    this.pictures = { ...given.pictures };
    this.picture = /** @type {HTMLImageElement | null} */ (null);
    /** @type {Found | null} what is being drawn */
    this.found = null;
    /** @type {Found | null} what is shown: while nodes are dragged that of the place before, until the first draws of the next are there */
    this.seen = null;
    this.drag = new Drag(this);
    this.isFollowing = false;
    /** @type {{ found: Found | null, done: number, grades: Map<string, import("./map.js").Grade> }} what the map has of the draws */
    this.graded = { found: null, done: 0, grades: new Map() };
    /** @type {import("./compare.js").Kept[]} */
    this.kept = [];
    this.nodes = /** @type {HTMLElement | null} */ (null);
    this.isDue = false;
    this.links = new MeanLinks();
    this.store = new Store(this.opened());
    this.map = new MapView(byId("map-place"));
    this.flood = new FloodView(this);
    new MapInput(this.map, {
      selected: () => this.store.state.selected,
      select: (selected) => this.select(selected),
      drag: (dx, dy) => this.drag.move(dx, dy),
      drop: (dx, dy) => this.drag.drop(dx, dy),
      add: (x, y) => this.add(x, y),
      remove: () => this.remove(),
      pick: (name) => this.store.set({ selected: [name], tab: this.store.state.tab === "answers" ? "plan" : this.store.state.tab }),
    });
    this.store.listeners.push((state, old) => this.turned(state, old));
    this.listen();
    this.loadPicture();
    this.turned(this.store.state, null);
  }

  /** The plan that the page was written with, or an empty one.
   * @returns {Plan} */
  opened() {
    const { schema, text, name, example } = this.given;
    try {
      return readPlan(schema, text || example, name);
    } catch (error) {
      if (!(error instanceof PlanError)) throw error;
      this.firstMessage = error.message;
      return emptyPlan(schema);
    }
  }

  listen() {
    for (const [name, run] of Object.entries({
      undo: () => this.store.undo(), redo: () => this.store.redo(),
      fit: () => this.map.fit(), nearer: () => this.map.zoomBy(1.25), farther: () => this.map.zoomBy(0.8),
      add: () => this.add(this.map.centre[0], this.map.centre[1]),
    })) byId(name).addEventListener("click", run);
    byId("threshold").addEventListener("input", () => this.store.set({ threshold: Number(byId("threshold").value) }));
    document.addEventListener("keydown", (event) => {
      const isField = event.target instanceof HTMLElement && /^(INPUT|SELECT|TEXTAREA)$/.test(event.target.tagName);
      if (!(event.ctrlKey || event.metaKey) || isField || !/^[zy]$/i.test(event.key)) return;
      if (event.key.toLowerCase() === "y" || event.shiftKey) this.store.redo();
      else this.store.undo();
      event.preventDefault();
    });
    for (const name of ["dragover", "drop"]) document.addEventListener(name, (event) => event.preventDefault());
    document.addEventListener("drop", (event) => this.open([...(event.dataTransfer?.files ?? [])]));
    window.matchMedia("(prefers-color-scheme: dark)").addEventListener("change", () => this.map.draw());
  }

  /** Another state: what depends on it is made anew.
   * @param {import("./state.js").State} state @param {import("./state.js").State | null} old */
  turned(state, old) {
    if (!old || state.plan !== old.plan) {
      this.loadPicture();
      this.draw(state.plan, false);
      if (old && (!old.plan.node.length || !state.plan.node.length)) this.map.isFitted = false;
    }
    if (!old || state.tab !== old.tab || state.plan !== old.plan) this.flood.mark();
    this.showMap(state.plan);
    this.showHead(state);
    if (!old || state.tab !== old.tab || state.plan !== old.plan || state.selected !== old.selected) this.showPanel();
  }

  /** Asks the engine for draws of a plan.
   * @param {Plan} plan @param {boolean} isMoving */
  draw(plan, isMoving) {
    const error = this.firstMessage || problemOf(plan);
    this.firstMessage = undefined;
    if (this.engine) this.engine.take(plan, isMoving, error);
    else {
      const why = "This browser has no WebAssembly, so nothing can be drawn here. Plans can be changed and saved.";
      this.told(nothingOf(plan, why));
    }
  }

  /** What the engine found.
   * @param {Found} found */
  told(found) {
    this.found = found;
    this.isFollowing = this.drag.plan !== null || (this.isFollowing && !isReady(found));
    if (!this.isFollowing || isReady(found)) this.seen = found;
    document.body.dataset.older = String(this.seen !== this.found);
    if (this.seen !== found) return;
    this.drag.draw();
    if (this.isDue) return;
    this.isDue = true;
    // The first draws at once, later ones not more often than one can read.
    const wait = found.done > FEW && found.done < found.wanted ? PANEL_WAIT : 0;
    window.setTimeout(() => requestAnimationFrame(() => {
      this.isDue = false;
      this.showMap(this.drag.plan ?? this.store.state.plan);
      this.showProgress();
      if (["answers", "compare"].includes(this.store.state.tab)) this.showPanel();
    }), wait);
  }

  /** @param {Plan} plan */
  showMap(plan) {
    const { selected, floor, threshold } = this.store.state;
    this.links.take(plan);
    const { found, done } = this.graded, { seen } = this;
    if (seen && (seen !== found || seen.done !== done)) this.graded = { found: seen, done: seen.done, grades: seen.error ? new Map() : gradesOf(seen) };
    this.map.show({
      plan, pairs: this.links.pairs, grades: this.graded.grades, selected, floor, threshold, picture: this.picture, version: this.links.version,
      moving: new Set(this.drag.plan ? selected : []),
    });
  }

  /** @param {import("./state.js").State} state */
  showHead(state) {
    byId("title").textContent = state.plan.plan.name || "A plan without a name";
    byId("undo").disabled = !this.store.before.length;
    byId("redo").disabled = !this.store.after.length;
    byId("message").textContent = state.message;
    byId("message").className = state.isBad ? "bad" : "";
    byId("threshold-value").textContent = state.threshold.toFixed(2);
    const floors = [...new Set(state.plan.node.map((node) => node.floor))].sort((one, other) => one - other);
    refill(
      byId("floors"),
      floors.length < 2 ? [] : floors.map(
        (floor) => button(`Floor ${floor}`, () => this.store.set({ floor }), { "aria-pressed": String(floor === state.floor) })
      ),
    );
    refill(
      byId("tabs"),
      TABS.map(
        ([name, text]) => button(
          text, () => this.store.set({ tab: name }),
          { role: "tab", id: `tab-${name}`, "aria-selected": String(state.tab === name), "aria-controls": "panel" },
        )
      ),
    );
    this.showProgress();
  }

  showProgress() {
    const { found } = this;
    byId("progress").textContent = found ? progressText(found) : "";
    document.body.dataset.generation = String(found?.generation ?? 0);
    document.body.dataset.done = String(found?.done ?? 0);
    document.body.dataset.ready = found && (found.error || (found.done >= found.wanted && found.isOwnKnown)) ? "all" : this.engine?.isReady ? "few" : "no";
  }

  showPanel() {
    const { state } = this.store, panel = byId("panel");
    panel.setAttribute("aria-labelledby", `tab-${state.tab}`);
    const open = new Map(
      [...panel.querySelectorAll("details[data-row]")].map((one) => [one.getAttribute("data-row"), /** @type {HTMLDetailsElement} */ (one).open])
    );
    const top = panel.scrollTop;
    refill(panel, panelOf(this, state));
    for (const one of panel.querySelectorAll("details[data-row]")) {
      const was = open.get(one.getAttribute("data-row"));
      if (was !== undefined) /** @type {HTMLDetailsElement} */ (one).open = was;
    }
    panel.scrollTop = top;
  }

  /** @param {string[]} selected */
  select(selected) {
    const said = selected.length === 1 ? this.map.marks.get(selected[0])?.getAttribute("aria-label") : `${selected.length} nodes are selected`;
    this.store.set({ selected, message: selected.length ? said ?? "" : "", isBad: false });
  }

  /** @param {string} message */
  failed(message) {
    this.store.set({ message, isBad: true });
  }

  /** @param {number} x @param {number} y */
  add(x, y) {
    try {
      const { plan, name } = withNode(this.given.schema, this.store.state.plan, x, y, this.store.state.floor);
      this.store.change(plan, `${name} added`, { selected: [name], tab: "plan" });
    } catch (error) {
      this.failed(String(error instanceof Error ? error.message : error));
    }
  }

  remove() {
    const { plan, selected } = this.store.state;
    if (selected.length) this.store.change(without(plan, selected), `${selected.join(", ")} deleted`, { selected: [] });
  }

  keep() {
    if (!this.found || this.found.error || this.kept.length >= 8) return;
    const used = this.kept.map((one) => one.name), name = [..."ABCDEFGHIJ"].find((one) => !used.includes(one)) ?? "A";
    this.kept = [...this.kept, { name, found: { ...this.found, draws: new Map(this.found.draws) } }];
    this.store.set({ message: `kept as ${name}`, isBad: false });
    this.showPanel();
  }

  /** @param {number} place */
  forget(place) {
    this.kept = this.kept.filter((_, at) => at !== place);
    this.showPanel();
  }

  /** @param {File[]} files */
  async open(files) {
    if (!files.length) return;
    try {
      const { plan, done, pictures } = await planOfFiles(this.given.schema, this.store.state.plan, files);
      Object.assign(this.pictures, pictures);
      this.map.isFitted = false;
      this.store.change(plan, done);
    } catch (error) {
      if (!(error instanceof PlanError)) throw error;
      this.failed(error.message);
    }
  }

  /** The picture of the floor plan, if it is there. */
  loadPicture() {
    const address = this.pictures[this.store.state.plan.floor.picture] ?? "";
    if (address === (this.picture?.src ?? "")) return;
    this.picture = null;
    if (!address.startsWith("data:image/")) return;
    const picture = new Image();
    picture.onload = () => {
      this.picture = picture;
      this.showMap(this.store.state.plan);
    };
    picture.src = address;
  }
}
