// Where the script begins: in a page it makes the page, and in a worker it draws. Tested, not proved.
import { Engine } from "./engine.js";
import { Page } from "./page.js";
import { byId } from "./dom.js";
import { work } from "./worker.js";

/** The bytes of a script element that has them compressed.
 * @param {string} id @returns {Promise<ArrayBuffer>} */
function unpacked(id) {
  const bytes = Uint8Array.from(atob(byId(id).textContent.trim()), (letter) => letter.charCodeAt(0));
  return new Response(new Blob([bytes]).stream().pipeThrough(new (/** @type {any} */ (globalThis).DecompressionStream)("gzip"))).arrayBuffer();
}

async function begin() {
  const given = JSON.parse(byId("given").textContent);
  /** @type {Page | null} */
  let page = null;
  let engine = null;
  if (typeof WebAssembly === "object") {
    const module = await WebAssembly.compile(await unpacked("module"));
    engine = new Engine(byId("program").textContent, { module, capacities: given.schema.capacities, event: given.event }, (found) => page?.told(found));
  }
  page = new Page(given, engine);
  Object.assign(globalThis, { foldcairnPage: page });
}

/** Begins. */
export function main() {
  if (typeof document === "undefined") work();
  else {
    begin().catch((error) => {
      byId("message").textContent = `The page could not begin: ${error.message}`;
      throw error;
    });
  }
}

main();
