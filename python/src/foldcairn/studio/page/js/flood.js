// One draw of the plan on the map: its rounds, the floods of a round, and the steps of one flood, played slowly. Tested, not proved.
import { button, h, s } from "./dom.js";
import { lostIn, reachedBy } from "./flood_log.js";

/** @typedef {import("./flood_log.js").Flood} Flood */
/** @typedef {{ floods: Flood[], links: [number, number][], names: [number, string][], frames: number, frame: number, plan: any, seed: number }} Told */

const WIDTH = 1000, HEIGHT = 70;

export class FloodView {
  /** @param {any} page */
  constructor(page) {
    this.page = page;
    /** @type {Told | null} */
    this.told = null;
    this.seed = 1;
    this.frame = 0;
    this.at = 0;
    this.step = 0;
    this.timer = 0;
    this.pace = 900;
    this.message = "";
  }

  /** The flood that is looked at. */
  get flood() {
    const ours = this.told?.floods.filter((one) => one.frame === this.frame) ?? [];
    return ours[Math.min(this.at, ours.length - 1)];
  }

  /** Whether what was drawn is of the plan as it is. */
  get isOfNow() {
    return this.told !== null && this.told.plan === this.page.store.state.plan;
  }

  async draw() {
    this.stop();
    const { engine, store } = this.page, plan = store.state.plan;
    if (!engine || this.page.found?.error) return;
    this.message = "drawing ..";
    this.show();
    try {
      const answer = await engine.ask("log", this.seed);
      this.told = { ...answer, plan, seed: this.seed };
      const first = answer.floods.find((/** @type {Flood} */ one) => one.kind === "data") ?? answer.floods[0];
      this.frame = first?.frame ?? 0;
      this.choose(Math.max(0, answer.floods.filter((/** @type {Flood} */ one) => one.frame === this.frame).indexOf(first)));
      this.message = answer.frames < answer.all ? `The first ${answer.frames} of ${answer.all} frames: a log has no more.` : "";
    } catch (error) {
      this.message = error instanceof Error ? error.message : String(error);
    }
    this.show();
  }

  /** @param {number} place of the flood in its frame */
  choose(place) {
    this.at = place;
    this.step = 0;
    this.mark();
  }

  /** Shows the step on the map. */
  mark() {
    const { flood, told } = this;
    const names = new Map(told?.names ?? []);
    const named = (/** @type {[number, number][]} */ links) => links.map(([from, to]) => [names.get(from) ?? "", names.get(to) ?? ""]);
    const step = this.isOfNow && this.page.store.state.tab === "flood" ? flood?.steps[this.step] : undefined;
    this.page.map.flood = step && told && flood
      ? { senders: step.senders.map((id) => names.get(id) ?? ""), heard: named(step.heard), lost: named(lostIn(flood, this.step, told.links)) } : null;
    this.page.map.draw();
  }

  show() {
    this.mark();
    if (this.page.store.state.tab === "flood") this.page.showPanel();
  }

  stop() {
    window.clearInterval(this.timer);
    this.timer = 0;
  }

  play() {
    if (this.timer) this.stop();
    else {
      if (this.flood && this.step >= this.flood.steps.length - 1) this.step = -1;
      this.timer = window.setInterval(() => {
        if (!this.flood || this.step >= this.flood.steps.length - 1 || this.page.store.state.tab !== "flood") this.stop();
        else this.step += 1;
        this.show();
      }, this.pace);
    }
    this.show();
  }

  /** @param {number} by */
  go(by) {
    this.stop();
    this.step = Math.max(0, Math.min((this.flood?.steps.length ?? 1) - 1, this.step + by));
    this.show();
  }

  view() {
    const seed = /** @type {HTMLInputElement} */ (h("input", {
      id: "flood-seed", type: "number", min: 0, "data-key": "flood-seed", value: String(this.seed),
      onchange: () => {
        this.seed = Math.max(0, Math.floor(Number(seed.value)) || 0);
      },
    }));
    const head = [
      h("h2", {}, "One draw, flood by flood"),
      h(
        "p", {}, h("label", { for: "flood-seed" }, "seed "), seed, button("Draw", () => this.draw()),
        h("span", { class: "quiet", role: "status" }, this.message),
      ),
    ];
    if (!this.told || !this.isOfNow) {
      const todo = "Draws the losses of one seed, and shows each flood on the map: who transmits, who receives, and what is lost.";
      return h("section", {}, head, h("p", { class: "quiet" }, this.told ? "The plan has changed since: draw again." : todo));
    }
    return h("section", {}, head, this.overview(this.told), this.floods(this.told), this.player());
  }

  /** All frames: a bar for each round, as high as its data slots.
   * @param {Told} told */
  overview(told) {
    /** @type {Map<number, { all: number, data: number }>} */
    const counts = new Map();
    for (const flood of told.floods) {
      const one = counts.get(flood.frame) ?? { all: 0, data: 0 };
      one.all += 1;
      one.data += flood.kind === "data" ? 1 : 0;
      counts.set(flood.frame, one);
    }
    const most = Math.max(1, ...[...counts.values()].map((one) => one.all)), wide = WIDTH / told.frames;
    const bars = [...counts].map(([frame, one]) => s("g", {},
      s("rect", { class: "round", x: frame * wide, width: Math.max(0.6, wide * 0.8), y: HEIGHT * (1 - one.all / most), height: (HEIGHT * one.all) / most }),
      s("rect", { class: "data", x: frame * wide, width: Math.max(0.6, wide * 0.8), y: HEIGHT * (1 - one.data / most), height: (HEIGHT * one.data) / most })));
    const slider = /** @type {HTMLInputElement} */ (h("input", {
      type: "range", id: "flood-frame", "data-key": "flood-frame", min: 0, max: told.frames - 1, value: String(this.frame),
      oninput: () => {
        this.stop();
        this.frame = Number(slider.value);
        this.choose(0);
        this.show();
      },
    }));
    return h("div", {}, s("svg", {
      class: "overview", viewBox: `0 0 ${WIDTH} ${HEIGHT}`, preserveAspectRatio: "none", role: "img",
      "aria-label": "Floods in each frame, data floods darker",
    }, bars,
      s("path", { class: "cursor", d: `M${((this.frame + 0.5) * wide).toFixed(1)},0 v${HEIGHT}` })),
    h("div", { class: "field" }, h("label", { for: "flood-frame" }, `frame ${this.frame}, from ${this.frame * told.frame} s`), slider));
  }

  /** The floods of the frame.
   * @param {Told} told */
  floods(told) {
    const names = new Map(told.names), ours = told.floods.filter((one) => one.frame === this.frame);
    if (!ours.length) return h("p", { class: "quiet" }, "No flood in this frame: no host opens a round in it.");
    return h("div", { class: "floods" }, ours.map((one, place) => {
      const name = names.get(one.node) ?? one.node, schedule = one.slot === 0 ? "opening" : "closing";
      const what = one.kind === "data" ? `${name} no. ${one.number}` : one.kind === "request" ? `request of ${name}` : schedule;
      const reached = reachedBy(one).size;
      return button(`${one.slot}: ${what}, ${reached} of ${told.names.length - 1}`, () => {
        this.stop();
        this.choose(place);
        this.show();
      }, { class: `${one.kind} ${reached < told.names.length - 1 ? "partly" : ""}`, "aria-pressed": String(place === Math.min(this.at, ours.length - 1)) });
    }));
  }

  player() {
    const { flood, told } = this;
    if (!flood || !told) return null;
    const step = flood.steps[Math.max(0, this.step)], names = new Map(told.names);
    const listed = (/** @type {Iterable<number>} */ ids) => [...ids].map((id) => names.get(id) ?? id).join(", ") || "nobody";
    const lost = new Set(lostIn(flood, Math.max(0, this.step), told.links).map(([, to]) => to));
    return h("div", {}, h("div", { id: "play" }, button(
      this.timer ? "Stop" : "Play", () => this.play(), { "data-key": "play" },
    ), button("Back", () => this.go(-1)), button("Next", () => this.go(1)),
      h("span", {}, `step ${step.step}, ${step.start.toFixed(4)} s`)),
    h(
      "dl", { id: "step", "aria-live": "polite" }, h("dt", {}, "transmit"), h("dd", { class: "transmit" }, listed(step.senders)),
      h("dt", {}, "receive"), h("dd", { class: "good" }, listed(step.heard.map(([, to]) => to))),
      h("dt", {}, "still without it"), h("dd", { class: "bad" }, listed(lost))));
  }
}
