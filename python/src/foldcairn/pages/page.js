"use strict";
// The timeline of a page of foldcairn.page: an overview of the run, and in short windows the slots and what was on the air.
(async () => {
  const TICKS = 64000000, HALF = 0.32;
  const place = document.getElementById("timeline"), message = document.getElementById("message");

  async function unpacked(id) {
    const bytes = Uint8Array.from(atob(document.getElementById(id).textContent), (letter) => letter.charCodeAt(0));
    return new Response(new Blob([bytes]).stream().pipeThrough(new DecompressionStream("gzip"))).text();
  }

  const scenario = await unpacked("scenario");
  document.getElementById("save").href = URL.createObjectURL(new Blob([scenario], { type: "text/plain" }));
  document.getElementById("save-settings").href = URL.createObjectURL(new Blob([await unpacked("settings")], { type: "application/json" }));
  const script = document.createElement("script");
  script.textContent = await unpacked("plotly-script");
  document.head.append(script);
  const figure = JSON.parse(await unpacked("figure")), run = JSON.parse(await unpacked("run"));
  for (const bars of [run.tunings, run.receptions, run.transmissions]) {
    let tick = 0;
    bars.start = bars.start.map((difference) => (tick += difference));
  }

  // The bars of a table that lie in a window of ticks, at least in part.
  function inside(bars, from, to) {
    const found = [];
    for (let at = 0; at < bars.start.length; at++) {
      if (bars.start[at] < to && bars.start[at] + bars.length[at] > from) found.push(at);
    }
    return found;
  }

  function shapes(bars, found, told) {
    const trace = { x: [], y: [], text: [] };
    for (const at of found) {
      const start = bars.start[at] / TICKS, end = (bars.start[at] + bars.length[at]) / TICKS;
      const low = bars.node[at] - HALF, high = bars.node[at] + HALF, words = told(at);
      trace.x.push(start, end, end, start, start, null);
      trace.y.push(low, low, high, high, low, null);
      trace.text.push(words, words, words, words, words, null);
    }
    return trace;
  }

  function trace(name, shape) {
    const colour = run.colours[name];
    return { ...shape, name, type: "scatter", mode: "lines", fill: "toself", fillcolor: colour, hoveron: "points", hoverinfo: "text",
      line: { color: colour, width: 0.5 } };
  }

  const seconds = (ticks) => (ticks / TICKS).toFixed(6) + " s";
  const node = (bars, at) => run.names[bars.node[at]];

  // What was on the air in a window, and the relay counters of packets whose bars have room for them.
  function details(from, to, width) {
    const { tunings, receptions, transmissions } = run, room = 9 * (to - from) / width;
    const heard = inside(receptions, from, to), sent = inside(transmissions, from, to);
    const steps = { x: [], y: [], text: [], name: "step", type: "scatter", mode: "text", hoverinfo: "skip", showlegend: false,
      textfont: { color: "#ffffff", size: 10 } };
    for (const [bars, found] of [[receptions, heard], [transmissions, sent]]) {
      for (const at of found) {
        if (bars.length[at] > room) {
          steps.x.push((bars.start[at] + bars.length[at] / 2) / TICKS);
          steps.y.push(bars.node[at]);
          steps.text.push(String(run.steps[bars.packet[at]]));
        }
      }
    }
    const listens = shapes(tunings, inside(tunings, from, to), (at) => `${node(tunings, at)}: ${run.purposes[tunings.purpose[at]]}, from `
      + `${seconds(tunings.start[at])} for ${(tunings.length[at] / 64000).toFixed(3)} ms`);
    const receives = shapes(receptions, heard, (at) => `${node(receptions, at)} receives of ${run.names[receptions.sender[at]]}: `
      + `${run.packets[receptions.packet[at]]}, from ${seconds(receptions.start[at])}`);
    const transmits = shapes(transmissions, sent, (at) => `${node(transmissions, at)} transmits: `
      + `${run.packets[transmissions.packet[at]]}, from ${seconds(transmissions.start[at])}`);
    return [trace("listens", listens), trace("receives", receives), trace("transmits", transmits), steps];
  }

  const ink = () => getComputedStyle(document.body).color;
  const faint = () => getComputedStyle(document.body).getPropertyValue("--faint").trim();

  // Lines at the edges of slots, and their names where there is room: upright if they do not fit otherwise.
  function slotMarks(from, to, width) {
    const { slots } = run, found = [];
    for (let at = 0; at < slots.name.length; at++) {
      if (slots.start_ticks[at] >= to || slots.end_ticks[at] <= from) continue;
      const left = Math.max(slots.start_ticks[at], from), right = Math.min(slots.end_ticks[at], to);
      const words = `slot ${slots.slot[at]}: ${slots.name[at]}`, room = (right - left) / (to - from) * width;
      found.push({ x: slots.start_ticks[at] / TICKS, middle: (left + right) / 2 / TICKS, words, room });
    }
    const most = Math.max(0, ...found.map((slot) => slot.room)), needs = (slot) => 6.5 * slot.words.length + 6;
    // A slot of which little is shown gives no measure.
    const upright = found.some((slot) => slot.room > most / 2 && slot.room < needs(slot));
    const named = found.filter((slot) => slot.room > (upright ? 15 : needs(slot)));
    const names = named.map((slot) => ({ x: slot.middle, y: 1, yref: "paper", yanchor: "bottom", text: slot.words, showarrow: false,
      textangle: upright ? -90 : 0, font: { size: 11 } }));
    const lines = found.map(({ x }) => ({ type: "line", x0: x, x1: x, yref: "paper", y0: 0, y1: 1, layer: "below",
      line: { color: faint(), width: 1, dash: "dot" } }));
    return { lines, names, above: upright && named.length ? 6.5 * Math.max(...named.map((slot) => slot.words.length)) : 0 };
  }

  let shown = [0, run.seconds];

  // Shows a window in seconds: the overview, or what was on the air in it.
  function show(from, to) {
    shown = [from, to];
    const width = place.clientWidth - 130, near = to - from <= run.detail;
    const marks = near ? slotMarks(from * TICKS, to * TICKS, width) : { lines: [], names: [], above: 0 };
    const layout = { ...figure.layout, font: { color: ink() }, shapes: marks.lines, annotations: marks.names };
    layout.xaxis = { ...layout.xaxis, range: [from, to], gridcolor: faint(), tickformat: to - from < 1 ? ".4f" : "", exponentformat: "none" };
    layout.margin = { ...layout.margin, t: layout.margin.t + marks.above };
    layout.legend = { ...layout.legend, y: -54 / (place.clientHeight - layout.margin.t - layout.margin.b) };
    const traces = near ? details(from * TICKS, to * TICKS, width) : figure.data;
    const rows = run.nodes.length;
    message.textContent = `From ${from.toFixed(4)} s to ${to.toFixed(4)} s, ${rows} nodes`
      + (near ? `; ${traces[2].text.length / 6} transmissions, ${traces[1].text.length / 6} receptions, ${traces[3].text.length} steps shown` : "");
    history.replaceState(null, "", from === 0 && to === run.seconds ? "#" : `#from=${from}&to=${to}`);
    return Plotly.react(place, traces, layout, { responsive: true, displaylogo: false, modeBarButtonsToRemove: ["select2d", "lasso2d"] });
  }

  // The window of the next round or slot, counted from the middle of what is shown; where many rounds are shown from its begin, or
  // back from its end.
  function step(direction, whole) {
    const { slots } = run, rounds = [], near = shown[1] - shown[0] <= run.detail;
    const middle = (near ? (shown[0] + shown[1]) / 2 : direction > 0 ? shown[0] : shown[1]) * TICKS;
    for (let at = 0; at < slots.name.length; at++) {
      const last = rounds[rounds.length - 1];
      const same = whole && last && slots.frame[at] === last.frame && slots.rank[at] === last.rank;
      if (same) last.end = slots.end_ticks[at];
      else rounds.push({ start: slots.start_ticks[at], end: slots.end_ticks[at], frame: slots.frame[at], rank: slots.rank[at] });
    }
    const beyond = rounds.filter((one) => direction * ((one.start + one.end) / 2 - middle) > 64 * 100);
    const next = direction > 0 ? beyond[0] : beyond[beyond.length - 1];
    if (next) show((next.start - 64000) / TICKS, (next.end + 64000) / TICKS);
  }

  function start() {
    const asked = new URLSearchParams(location.hash.slice(1));
    const from = Math.max(0, Number(asked.get("from") ?? 0)), to = Math.min(run.seconds, Number(asked.get("to") ?? run.seconds));
    return from < to ? show(from, to) : show(0, run.seconds);
  }

  await start();
  place.on("plotly_relayout", (change) => {
    if ("xaxis.autorange" in change) show(0, run.seconds);
    else if ("xaxis.range[0]" in change) show(Math.max(0, change["xaxis.range[0]"]), Math.min(run.seconds, change["xaxis.range[1]"]));
  });
  // The contents of the page are also behind a hash.
  window.addEventListener("hashchange", () => /^#?$|from=|to=/.test(location.hash) && start());
  matchMedia("(prefers-color-scheme: dark)").addEventListener("change", () => show(...shown));
  document.getElementById("whole").onclick = () => show(0, run.seconds);
  document.getElementById("on").onclick = () => step(1, true);
  document.getElementById("back").onclick = () => step(-1, true);
  document.getElementById("slot-on").onclick = () => step(1, false);
  document.getElementById("slot-back").onclick = () => step(-1, false);
  document.body.dataset.ready = "yes";
})().catch((error) => {
  document.getElementById("message").textContent = "The timeline can't be shown; it needs a browser of 2023 or later. " + error;
  console.error(error);
});
