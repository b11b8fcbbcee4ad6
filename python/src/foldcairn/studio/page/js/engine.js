// Draws of the plan that is looked at, by workers on all processors. Each plan has a generation number, and nothing of an older one is
// ever given on. Tested, not proved.

/** @typedef {import("./types.js").Plan} Plan */
/** @typedef {import("./measure.js").Draw} Draw */
/** @typedef {{ key: string, failed: string, seconds: number, requirements: number[] }} Case */
/**
 * What was found of a plan: the draws by the keys of cases, whether each has a network of its own, and bounds; null is not known yet.
 * @typedef {{ generation: number, plan: Plan, error: string, draws: Map<string, Draw[]>, cases: Map<string, number[]>, done: number, wanted: number,
 *   own: boolean, isOwnKnown: boolean, bounds: import("./bounds.js").Told | null }} Found
 */
/** @typedef {{ one: Case, seed: number, command?: string }} Job a draw, or a command */
/** @typedef {{ worker: Worker, job: Job | null, generation: number, plan: Plan | null, since: number }} Hand the plan is the one that it has */

// How many draws there are at once, and how many are added as long as nothing moves.
export const FEW = 8;
// A worker that is longer than this at a draw of an older plan is stopped, in milliseconds. A new one is slow at first.
const PATIENCE = 1_000;
// So many failures are gone through at most; more take too long for a page.
const CASES_MOST = 64;
// A failure has fewer draws than the plan itself.
const FAILURE_DRAWS = 32;

/** The cases of a plan: as planned, and each failure that a requirement names.
 * @param {Plan} plan @returns {Case[]} */
export function casesOf(plan) {
  /** @type {Map<string, Case>} */
  const found = new Map();
  const put = (/** @type {string} */ failed, /** @type {number} */ seconds, /** @type {number[]} */ places) => {
    const key = `${failed} ${seconds}`;
    const one = found.get(key) ?? { key, failed, seconds, requirements: [] };
    one.requirements.push(...places);
    found.set(key, one);
  };
  put("", 0, []);
  plan.requirement.forEach((requirement, place) => {
    for (const { failed, seconds } of casesFor(plan, requirement)) put(failed, seconds, [place]);
  });
  return [...found.values()].slice(0, CASES_MOST);
}

/** The cases of a requirement.
 * @param {Plan} plan @param {import("./types.js").Row} requirement @returns {{ failed: string, seconds: number }[]} */
export function casesFor(plan, requirement) {
  const { when } = requirement, seconds = requirement.at ?? (plan.plan.hours * 3600) / 3;
  if (when === "as planned") return [{ failed: "", seconds: 0 }];
  if (when === "any one node fails") return plan.node.filter((node) => !node.candidate).map((node) => ({ failed: node.name, seconds }));
  if (when === "any one host fails") return [...plan.host].sort((one, other) => one.rank - other.rank).map((host) => ({ failed: host.node, seconds }));
  return [{ failed: when.replace(/ fails$/, ""), seconds }];
}

/** Whether the first draws are there, or there is none.
 * @param {Found} found */
export function isReady(found) {
  return found.error !== "" || found.done >= Math.min(FEW, found.wanted);
}

/** What is found of a plan before its first draw.
 * @param {Plan} plan @param {string} error why there will be none @returns {Found} */
export function nothingOf(plan, error) {
  return { generation: 0, plan, error, draws: new Map(), cases: new Map(), done: 0, wanted: 0, own: true, isOwnKnown: true, bounds: null };
}

/** What is to be done for a plan, in its order: a few draws, what is asked once, a few draws of each failure, and more draws.
 * @param {Case[]} cases @param {number} most draws @param {boolean} isMoving @returns {Job[]} */
function jobsOf(cases, most, isMoving) {
  const draws = (/** @type {Case} */ one, /** @type {number} */ from, /** @type {number} */ to) => (
    Array.from({ length: Math.max(0, to - from + 1) }, (_, place) => ({ one, seed: from + place }))
  );
  const few = Math.min(FEW, most), [planned, ...failures] = cases, first = planned ? draws(planned, 1, few) : [];
  if (isMoving || !planned) return first;
  const once = ["own", "bounds"].map((command) => ({ one: planned, seed: 1, command }));
  const more = cases.flatMap((one, place) => draws(one, few + 1, place ? Math.min(most, FAILURE_DRAWS) : most));
  return [...first, ...once, ...failures.flatMap((one) => draws(one, 1, few)), ...more];
}

/** The tables of a plan that are others than in the one that a worker has: a table that stays need not be sent.
 * @param {Plan} plan @param {Plan | null} old */
function changesOf(plan, old) {
  return Object.fromEntries(Object.entries(plan).filter(([name, rows]) => !old || old[/** @type {"node"} */ (name)] !== rows));
}

export class Engine {
  /**
   * @param {string} program the text of the page's script, which is also that of its workers
   * @param {{ module: WebAssembly.Module, capacities: Record<string, number>, event: any }} given
   * @param {(found: Found) => void} told called when there is something new
   * @param {number} [size] how many workers
   */
  constructor(program, given, told, size = Math.max(1, Math.min(16, navigator.hardwareConcurrency || 4))) {
    this.given = given;
    this.told = told;
    this.url = URL.createObjectURL(new Blob([program], { type: "text/javascript" }));
    this.generation = 0;
    /** @type {Found | null} */
    this.found = null;
    /** @type {Job[]} */
    this.waiting = [];
    /** @type {Hand[]} */
    this.hands = [];
    this.isMoving = false;
    while (this.hands.length < size) this.hands.push(this.hired());
  }

  /** @returns {Hand} */
  hired() {
    const worker = new Worker(this.url);
    /** @type {Hand} */
    const hand = { worker, job: null, generation: 0, plan: null, since: 0 };
    worker.postMessage({ ...this.given, generation: 0 });
    worker.onmessage = ({ data }) => this.heard(hand, data);
    worker.onerror = (event) => this.heard(hand, { generation: hand.generation, error: event.message || "a worker failed" });
    return hand;
  }

  /** Whether the first draws of the plan are there, or it has none. */
  get isReady() {
    return !this.found || isReady(this.found);
  }

  /** Takes a plan in place of the one before. With `isMoving` a few draws are made only; the same plan again keeps its draws.
   * @param {Plan} plan @param {boolean} [isMoving] @param {string} [error] why there is nothing to draw */
  take(plan, isMoving = false, error = "") {
    const isAgain = this.found !== null && this.found.plan === plan && !this.found.error && !error;
    if (!isAgain) this.generation += 1;
    this.isMoving = isMoving;
    const cases = error ? [] : casesOf(plan), jobs = jobsOf(cases, Math.max(1, plan.plan.seeds), isMoving);
    const before = isAgain ? this.found : null;
    this.found = {
      ...nothingOf(plan, error), ...before, generation: this.generation, cases: new Map(cases.map((one) => [one.key, one.requirements])),
      wanted: jobs.filter((job) => !job.command).length, own: this.found?.own ?? true, isOwnKnown: isMoving || !cases.length,
    };
    this.waiting = before ? jobs.filter((job) => !this.isBegun(before, job)) : jobs;
    this.stopOld();
    this.told(this.found);
    this.next();
  }

  /** Whether a draw of the plan that is drawn is there, or under way.
   * @param {Found} found @param {Job} wanted */
  isBegun({ draws, generation }, { one, seed, command }) {
    if (command) return false;
    const isSame = (/** @type {Hand} */ { job }) => job !== null && !job.command && job.one.key === one.key && job.seed === seed;
    return (draws.get(one.key) ?? []).some((draw) => draw.seed === seed) || this.hands.some((hand) => hand.generation === generation && isSame(hand));
  }

  /** Stops workers that are long at an older plan. */
  stopOld() {
    for (const [place, hand] of this.hands.entries()) {
      if (!hand.job || hand.generation === this.generation || performance.now() - hand.since < PATIENCE) continue;
      hand.worker.terminate();
      this.hands[place] = this.hired();
    }
  }

  next() {
    // While something moves, a processor is left to the page.
    const most = this.isMoving ? Math.max(1, this.hands.length - 1) : this.hands.length;
    for (const hand of this.hands) {
      if (!this.waiting.length || this.hands.filter((one) => one.job).length >= most) return;
      if (!hand.job) this.send(hand, this.taken(this.hands.indexOf(hand)));
    }
  }

  /** The next job of a worker: of the first draws those of its own seeds before others, since it keeps what they draw for places.
   * @param {number} place of the worker @returns {Job} */
  taken(place) {
    const first = this.waiting.slice(0, FEW), { length } = this.hands;
    const found = first.findIndex((job) => !job.command && job.seed <= FEW && job.seed % length === place && job.one.key === first[0].one.key);
    return this.waiting.splice(Math.max(0, found), 1)[0];
  }

  /** @param {Hand} hand @param {Job} job */
  send(hand, job) {
    const plan = /** @type {Found} */ (this.found).plan;
    if (hand.generation !== this.generation) hand.worker.postMessage({ plan: changesOf(plan, hand.plan), generation: this.generation });
    Object.assign(hand, { generation: this.generation, plan, job, since: performance.now() });
    const { one: { failed, seconds, requirements }, seed, command } = job;
    hand.worker.postMessage({ seed, failed, seconds, requirements, command, generation: this.generation });
  }

  /** @param {Hand} hand @param {any} answer */
  heard(hand, answer) {
    hand.job = null;
    if (this.found && answer.generation === this.found.generation) this.add(this.found, answer);
    this.next();
  }

  /** @param {Found} found @param {any} answer */
  add(found, answer) {
    if (answer.draw) {
      const there = found.draws.get(answer.case) ?? [];
      found.draws.set(answer.case, [...there, answer.draw].sort((one, other) => one.seed - other.seed));
      found.done += 1;
    } else if (answer.own !== undefined) [found.own, found.isOwnKnown] = [answer.own, true];
    else if (answer.told !== undefined) found.bounds = answer.told;
    else if (answer.error && !answer.isCommand) {
      this.waiting = [];
      found.error = answer.error;
    } else return;
    this.told(found);
  }

  /** The network or the log of one seed of the plan as it is, by a worker of its own: a log takes long.
   * @param {"network" | "log"} command @param {number} seed @returns {Promise<any>} */
  ask(command, seed) {
    return new Promise((resolve, reject) => {
      const worker = new Worker(this.url);
      const ends = (/** @type {() => void} */ then) => {
        worker.terminate();
        then();
      };
      worker.onmessage = ({ data }) => ends(() => (data.error ? reject(new Error(data.error)) : resolve(data)));
      worker.onerror = (event) => ends(() => reject(new Error(event.message || "a worker failed")));
      worker.postMessage({ ...this.given, generation: 0 });
      worker.postMessage({ plan: this.found?.plan, generation: 1 });
      worker.postMessage({ command, seed, generation: 1 });
    });
  }
}
