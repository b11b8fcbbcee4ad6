// Foldcairn's programs in JavaScript, over foldcairn.wasm: what a command writes of an input, at once or in workers.
//
//     const module = await Foldcairn.compile(bytes);                   // the bytes of foldcairn.wasm
//     const { status, output } = Foldcairn.run(module, ["run"], text);   // here and at once
//     const kept = Foldcairn.open(module);                             // keeps its memory from call to call, which is quicker;
//     const { status, output } = kept.call(["outcome", "1"], text);    // the output is there until the next call
//     const pool = new Foldcairn.Pool(module, 4);                      // in four workers
//     const answer = await pool.run(["bus"], text, { signal });        // an AbortSignal ends it
//     const seeds = await pool.sample(network, 1, 1000, { signal, progress: (done, all) => .. });
//     pool.close();
//
// A text is a string or bytes, and an output is bytes. The statuses are those of the programs: 0, 1 for an input that is rejected, 2 for words
// that are no command, 5 where memory runs out. What was opened is of no more use where a call has status 5 or throws. It is a plain script, so
// that a page from a file can load it: it defines `Foldcairn`. In node it is imported for that. Tested, not proved.
globalThis.Foldcairn = (() => {
  const isNode = typeof process === "object" && Boolean(process.versions?.node);

  // This function is also in the text of a worker, so it takes nothing from around it.
  function openModule(module) {
    const { exports } = new WebAssembly.Instance(module, {});
    const encoder = new TextEncoder();
    const given = (bytes) => {
      const place = exports.room(bytes.length) >>> 0;
      if (place === 0) return 0;
      new Uint8Array(exports.memory.buffer, place, bytes.length).set(bytes);
      return place;
    };
    const call = (words, input) => {
      const spelled = encoder.encode(words.map((word) => word + "\0").join(""));
      const text = typeof input === "string" ? encoder.encode(input) : input;
      const [first, second] = [given(spelled), given(text)];
      if (first === 0 || second === 0) return { status: 5, output: new Uint8Array() };
      const status = exports.call(first, spelled.length, second, text.length);
      return { status, output: new Uint8Array(exports.memory.buffer, exports.output() >>> 0, exports.output_length()) };
    };
    return { call, memory: () => exports.memory.buffer.byteLength };
  }

  function runModule(module, words, input) {
    const { status, output } = openModule(module).call(words, input);
    return { status, output: output.slice() };
  }

  const workerText = `
    ${openModule}
    ${runModule}
    const answer = ({ module, words, input }) => {
      try { return runModule(module, words, input); } catch (error) { return { error: String(error) }; }
    };
    ${isNode
      ? `const { parentPort } = require("node:worker_threads");
         parentPort.on("message", (job) => parentPort.postMessage(answer(job)));`
      : `onmessage = ({ data }) => postMessage(answer(data));`}`;

  // A worker: `post` gives it a job, `done` gets what it answers, and `end` stops it, whatever it does.
  async function started() {
    if (isNode) {
      const { Worker } = await import("node:worker_threads");
      const worker = new Worker(workerText, { eval: true });
      const made = { post: (job) => worker.postMessage(job), end: () => worker.terminate(), done: () => {} };
      worker.on("message", (answer) => made.done(answer));
      worker.on("error", (error) => made.done({ error: String(error) }));
      return made;
    }
    const url = URL.createObjectURL(new Blob([workerText], { type: "text/javascript" }));
    const worker = new Worker(url);
    const made = { post: (job) => worker.postMessage(job), end: () => (worker.terminate(), URL.revokeObjectURL(url)), done: () => {} };
    worker.onmessage = ({ data }) => made.done(data);
    worker.onerror = (event) => made.done({ error: event.message });
    return made;
  }

  // Workers that answer several calls at once, in the order in which they come.
  class Pool {
    #module; #idle; #waiting = []; #busy = new Set(); #closed = false;

    // At most that many at once. Workers start when they are needed.
    constructor(module, size = (globalThis.navigator?.hardwareConcurrency ?? 4)) {
      if (!Number.isInteger(size) || size < 1) throw new RangeError(`a pool of ${size} workers`);
      this.#module = module;
      this.#idle = Array(size).fill(null);
    }

    // What a command writes of an input: {status, output}. The signal ends it: then it is rejected with the signal's reason, and the worker is
    // stopped. It is rejected with an Error where the module fails.
    run(words, input, { signal } = {}) {
      if (this.#closed) return Promise.reject(new Error("the pool is closed"));
      if (signal?.aborted) return Promise.reject(signal.reason);
      return new Promise((resolve, reject) => {
        const call = { job: { module: this.#module, words, input }, resolve, reject, signal, worker: null };
        call.abort = () => this.#abort(call, signal.reason);
        signal?.addEventListener("abort", call.abort, { once: true });
        this.#waiting.push(call);
        this.#next();
      });
    }

    // What `sample FROM COUNT` writes of a network, in parts of `part` seeds at once. Progress is called with the number of seeds that are
    // done, and of all. The output is that of one call; where a part fails it is the answer of the first that does.
    async sample(network, from, count, { signal, progress, part = 25 } = {}) {
      const parts = [];
      for (let seed = from; seed < from + count; seed += part) parts.push([seed, Math.min(part, from + count - seed)]);
      if (parts.length === 0) return this.run(["sample", String(from), String(count)], network, { signal });
      let done = 0;
      const answers = await Promise.all(parts.map(async ([seed, seeds]) => {
        const answer = await this.run(["sample", String(seed), String(seeds)], network, { signal });
        done += seeds;
        progress?.(done, count);
        return answer;
      }));
      const failed = answers.find((answer) => answer.status !== 0);
      return failed ?? { status: 0, output: joined(answers.map((answer) => answer.output)) };
    }

    // Stops all workers. Calls that are not done are rejected.
    close() {
      this.#closed = true;
      for (const call of [...this.#waiting, ...this.#busy]) this.#abort(call, new Error("the pool is closed"));
      for (const worker of this.#idle) worker?.end();
      this.#idle = [];
    }

    async #next() {
      if (this.#waiting.length === 0 || this.#idle.length === 0) return;
      const call = this.#waiting.shift();
      this.#busy.add(call);
      const worker = this.#idle.pop() ?? (await started());
      if (!this.#busy.has(call)) return this.#free(worker);
      call.worker = worker;
      worker.done = (answer) => {
        this.#finish(call);
        if (answer.error) call.reject(new Error(answer.error));
        else call.resolve(answer);
        this.#free(worker);
      };
      worker.post(call.job);
    }

    #free(worker) {
      if (this.#closed) return worker?.end();
      this.#idle.push(worker);
      this.#next();
    }

    #finish(call) {
      this.#busy.delete(call);
      call.signal?.removeEventListener("abort", call.abort);
    }

    #abort(call, reason) {
      const place = this.#waiting.indexOf(call);
      if (place >= 0) this.#waiting.splice(place, 1);
      const wasBusy = this.#busy.has(call);
      this.#finish(call);
      call.reject(reason);
      if (wasBusy && call.worker) {
        call.worker.done = () => {};
        call.worker.end();
        this.#free(null);
      }
    }
  }

  function joined(pieces) {
    const whole = new Uint8Array(pieces.reduce((size, piece) => size + piece.length, 0));
    let at = 0;
    for (const piece of pieces) {
      whole.set(piece, at);
      at += piece.length;
    }
    return whole;
  }

  return { compile: (bytes) => WebAssembly.compile(bytes), open: openModule, run: runModule, Pool };
})();
