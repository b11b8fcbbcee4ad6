// How likely a packet is received by its signal to noise ratio: the curve of IEEE 802.15.4-2006, annex E.4.1.8, as
// foldcairn.propagation.curve has it. Tested, not proved.

const ORDERS = Array.from({ length: 15 }, (_, place) => place + 2);
const WEIGHTS = ORDERS.map((order) => (8 / 15 / 16) * (order % 2 ? -1 : 1) * choose(16, order));
const SLOPES = ORDERS.map((order) => 20 * (1 / order - 1));
// Shadowing in deviations, at which a ratio is taken for its mean, and the share of each.
const STEP = 1 / 40;
const GRID = Array.from({ length: 681 }, (_, place) => -8.5 + place * STEP);
const SHARES = GRID.map((z) => (Math.exp((-z * z) / 2) * STEP) / Math.sqrt(2 * Math.PI));

/** @param {number} n @param {number} k */
function choose(n, k) {
  let found = 1;
  for (let one = 1; one <= k; one++) found = (found * (n - k + one)) / one;
  return Math.round(found);
}

/** The bits that have to be received of a packet of so many bytes.
 * @param {number} bytes */
export function packetBits(bytes) {
  return 8 * (bytes + 8);
}

/** The share of bits that are wrong.
 * @param {number} snr in dB */
export function bitErrorRatio(snr) {
  const signal = 10 ** (snr / 10);
  let total = 0;
  for (let place = 0; place < 15; place++) total += WEIGHTS[place] * Math.exp(SLOPES[place] * signal);
  return Math.min(0.5, Math.max(0, total));
}

/** The reception ratio of packets of so many bits.
 * @param {number} snr in dB @param {number} bits */
export function ratioOfSnr(snr, bits) {
  // Beyond 12 dB no double is below 1.
  return snr > 12 ? 1 : Math.exp(bits * Math.log1p(-bitErrorRatio(snr)));
}

/** The signal to noise ratio in dB, within 0.0001, at which packets have a reception ratio from 0.01 to 0.99.
 * @param {number} ratio @param {number} bits */
export function snrOfRatio(ratio, bits) {
  const signal = (/** @type {number} */ place) => -15 + place * 0.001;
  let low = 0, high = 29_999;
  while (high - low > 1) {
    const middle = Math.floor((low + high) / 2);
    if (ratioOfSnr(signal(middle), bits) <= ratio) low = middle;
    else high = middle;
  }
  const before = ratioOfSnr(signal(low), bits), after = ratioOfSnr(signal(high), bits);
  return signal(low) + (0.001 * (ratio - before)) / (after - before);
}

/** The mean ratio where the signal to noise ratio is normal.
 * @param {number} snr its mean in dB @param {number} deviation in dB @param {number} bits */
export function expectedRatio(snr, deviation, bits) {
  if (deviation === 0) return ratioOfSnr(snr, bits);
  let sum = 0;
  for (let place = 0; place < GRID.length; place++) sum += ratioOfSnr(snr + GRID[place] * deviation, bits) * SHARES[place];
  return Math.min(1, sum);
}

/** @type {Map<string, Float64Array>} */
const tables = new Map();
const TABLE_LOW = -60, TABLE_HIGH = 80, TABLE_STEP = 0.1;

/** The same from a table, to some 1e-5: for what is shown while a node is moved.
 * @param {number} snr @param {number} deviation @param {number} bits */
export function tabledRatio(snr, deviation, bits) {
  if (deviation === 0) return ratioOfSnr(snr, bits);
  if (snr <= TABLE_LOW) return 0;
  if (snr >= TABLE_HIGH) return 1;
  const key = `${deviation} ${bits}`;
  let table = tables.get(key);
  if (!table) {
    table = Float64Array.from({ length: Math.round((TABLE_HIGH - TABLE_LOW) / TABLE_STEP) + 1 }, () => NaN);
    tables.set(key, table);
  }
  const place = (snr - TABLE_LOW) / TABLE_STEP, left = Math.floor(place);
  for (const one of [left, left + 1]) if (Number.isNaN(table[one])) table[one] = expectedRatio(TABLE_LOW + one * TABLE_STEP, deviation, bits);
  return table[left] + (place - left) * (table[left + 1] - table[left]);
}
