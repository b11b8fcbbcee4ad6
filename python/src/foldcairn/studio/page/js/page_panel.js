// What the panel of the page shows, tab by tab. Tested, not proved.
import { nodesView, requirementsView, streamsView } from "./answers.js";
import { boundsView } from "./bounds.js";
import { compareView } from "./compare.js";
import { h } from "./dom.js";
import { cautionsOf } from "./figures.js";
import { filesView } from "./files.js";
import { planView, selectionView } from "./panel.js";
import { emptyPlan, readPlan } from "./plan_file.js";

/** @typedef {import("./types.js").Plan} Plan */

/** What the panel shows.
 * @param {import("./page.js").Page} page @param {import("./state.js").State} state @returns {(Node | null)[]} */
export function panelOf(page, state) {
  const means = {
    schema: page.given.schema,
    change: (
      /** @type {Plan} */ plan, /** @type {string} */ done, /** @type {string[] | undefined} */ selected,
    ) => page.store.change(plan, done, selected ? { selected } : {}),
    failed: (/** @type {string} */ message) => page.failed(message),
  };
  if (state.tab === "plan") return [selectionView(means, state.plan, state.selected), ...planView(means, state.plan)];
  if (state.tab === "compare") {
    return [
      compareView(
        page.kept, page.seen,
        {
          keep: () => page.keep(), back: (place) => page.store.change(page.kept[place].found.plan, `back to ${page.kept[place].name}`),
          drop: (place) => page.forget(place),
        },
      ),
    ];
  }
  if (state.tab === "flood") return [page.flood.view()];
  if (state.tab === "files") {
    return [filesView({
      schema: page.given.schema, plan: state.plan, found: () => page.found,
      open: (files) => page.open(files), failed: (message) => page.failed(message),
      begin: () => page.store.change(emptyPlan(page.given.schema), "an empty plan"),
      example: () => page.store.change(readPlan(page.given.schema, page.given.example), "the example"),
      network: async (seed) => (page.engine ? (await page.engine.ask("network", seed)).text : ""),
    })];
  }
  return answersOf(page, state.plan);
}

/** @param {import("./page.js").Page} page @param {Plan} plan */
function answersOf(page, plan) {
  const found = page.seen;
  if (!found) return [];
  if (found.error) {
    return [h("section", { class: "empty" }, h("h2", {}, plan.node.length ? "Nothing to draw yet" : "An empty plan"), h("p", {}, found.error))];
  }
  const told = cautionsOf(plan, page.links.links);
  return [
    h("section", {}, h("h2", {}, "Requirements"), requirementsView(found)),
    boundsView(found.bounds),
    told.length ? h("section", { class: "cautions" }, h("h2", {}, "Cautions"), h("ul", {}, told.map((one) => h("li", {}, one)))) : null,
    h("section", {}, h("h2", {}, "Streams"), streamsView(found)),
    // It changes little while a node is dragged, and takes long.
    (page.nodes = page.drag.plan && page.nodes ? page.nodes : h("section", {}, h("h2", {}, "Nodes"), nodesView(found))),
  ];
}
