// The normal and the beta distribution and Student's, with their inverses, to some 12 digits. Tested, not proved.
//
// Sources: W. H. Press et al., Numerical Recipes, 6.4 (the continued fraction); C. Loader, Fast and accurate computation of binomial
// probabilities, 2000 (its first factor); M. J. Wichura, Algorithm AS 241, Applied Statistics 37, 1988 (the inverse of the normal).

const LITTLE = 1e-300, ENOUGH = 1e-15;

/** What Stirling's formula lacks of the logarithm of the gamma function, for a number above 0.
 * @param {number} of */
function stirlingRest(of) {
  let rest = 0, z = of;
  for (; z < 16; z++) rest += (z + 0.5) * Math.log1p(1 / z) - 1;
  const square = 1 / (z * z);
  return rest + (1 / 12 - square * (1 / 360 - square * (1 / 1260 - square * (1 / 1680 - square / 1188)))) / z;
}

/** x log(x / m) + m - x, without cancellation.
 * @param {number} x @param {number} m */
function deviance(x, m) {
  const apart = x - m;
  if (Math.abs(apart) >= 0.1 * (x + m)) return x * Math.log(x / m) - apart;
  const ratio = apart / (x + m);
  let sum = apart * ratio, term = 2 * x * ratio;
  for (let odd = 3; odd < 1000; odd += 2) {
    term *= ratio * ratio;
    const next = sum + term / odd;
    if (next === sum) break;
    sum = next;
  }
  return sum;
}

/** x^a y^b / B(a, b) with y = 1 - x.
 * @param {number} x @param {number} y @param {number} a @param {number} b */
function betaFactor(x, y, a, b) {
  const n = a + b;
  const rest = stirlingRest(n) - stirlingRest(a) - stirlingRest(b);
  return Math.sqrt((a * b) / (2 * Math.PI * n)) * Math.exp(rest - deviance(a, n * x) - deviance(b, n * y));
}

/** @param {number} x @param {number} a @param {number} b */
function betaFraction(x, a, b) {
  let c = 1, d = 1 - ((a + b) * x) / (a + 1);
  d = 1 / (Math.abs(d) < LITTLE ? LITTLE : d);
  let h = d;
  for (let m = 1; m <= 100_000; m++) {
    for (const part of [(m * (b - m) * x) / ((a + 2 * m - 1) * (a + 2 * m)), (-(a + m) * (a + b + m) * x) / ((a + 2 * m) * (a + 2 * m + 1))]) {
      d = 1 + part * d;
      c = 1 + part / c;
      d = 1 / (Math.abs(d) < LITTLE ? LITTLE : d);
      c = Math.abs(c) < LITTLE ? LITTLE : c;
      h *= d * c;
    }
    if (Math.abs(d * c - 1) < ENOUGH) break;
  }
  return h;
}

/** Both tails of the beta distribution at x with y = 1 - x: what is below, and what is above.
 * @param {number} x @param {number} y @param {number} a @param {number} b */
function betaTails(x, y, a, b) {
  if (x <= 0) return [0, 1];
  if (y <= 0) return [1, 0];
  const factor = betaFactor(x, y, a, b);
  if (x < (a + 1) / (a + b + 2)) {
    const below = (factor * betaFraction(x, a, b)) / a;
    return [below, 1 - below];
  }
  const above = (factor * betaFraction(y, b, a)) / b;
  return [1 - above, above];
}

/** The distribution function of Beta(a, b) at x from 0 to 1.
 * @param {number} a @param {number} b @param {number} x */
export function betaBelow(a, b, x) {
  return betaTails(x, 1 - x, a, b)[0];
}

/**
 * The logarithm of the odds of the x at which the distribution function of Beta(a, b) has a value from 0 to 1.
 * @param {number} a
 * @param {number} b
 * @param {number} share
 */
export function betaLogOdds(a, b, share) {
  if (share <= 0) return -Infinity;
  if (share >= 1) return Infinity;
  const isLow = share <= 0.5;
  const wanted = Math.log(isLow ? share : 1 - share);
  let [low, high] = [-745, 745];
  let odds = Math.log(a / b);
  for (let step = 0; step < 200; step++) {
    const x = 1 / (1 + Math.exp(-odds)), y = 1 / (1 + Math.exp(odds));
    const tail = betaTails(x, y, a, b)[isLow ? 0 : 1];
    // Of the logarithm, so that Newton's steps do well far out too.
    const error = tail > 0 ? Math.log(tail) - wanted : -Infinity;
    if (error > 0 === isLow) high = odds;
    else low = odds;
    const slope = (betaFactor(x, y, a, b) / tail) * (isLow ? 1 : -1);
    let next = odds - error / slope;
    if (!(next > low && next < high)) next = (low + high) / 2;
    if (Math.abs(next - odds) < 1e-13 * Math.max(1, Math.abs(odds)) || high - low < 1e-13) return next;
    odds = next;
  }
  return odds;
}

/** The x at which the distribution function of Beta(a, b) has a value.
 * @param {number} a @param {number} b @param {number} share */
export function betaQuantile(a, b, share) {
  return 1 / (1 + Math.exp(-betaLogOdds(a, b, share)));
}

/** @type {Map<string, number>} quantiles that were asked for before */
const students = new Map();

/** The quantile of Student's distribution of a share from 0 to 1.
 * @param {number} degrees above 0 @param {number} share */
export function studentQuantile(degrees, share) {
  if (share === 0.5) return 0;
  const tail = Math.min(share, 1 - share), key = `${degrees} ${tail}`;
  let size = students.get(key);
  if (size === undefined) {
    size = Math.sqrt(degrees * Math.exp(-betaLogOdds(degrees / 2, 0.5, 2 * tail)));
    if (students.size > 10_000) students.clear();
    students.set(key, size);
  }
  return share < 0.5 ? -size : size;
}

/** The distribution function of the standard normal.
 * @param {number} z */
export function normalBelow(z) {
  const density = Math.exp((-z * z) / 2) / Math.sqrt(2 * Math.PI);
  const size = Math.abs(z);
  let above;
  if (size < 3) {
    let term = size, sum = size;
    for (let odd = 3; term > 1e-18 * sum && odd < 400; odd += 2) sum += term *= (size * size) / odd;
    above = 0.5 - density * sum;
  } else {
    let rest = size;
    for (let k = 120; k >= 1; k--) rest = size + k / rest;
    above = density / rest;
  }
  return z > 0 ? 1 - above : above;
}

const NEAR = [
  [3.3871328727963666080e0, 1.3314166789178437745e2, 1.9715909503065514427e3, 1.3731693765509461125e4, 4.5921953931549871457e4, 6.7265770927008700853e4,
    3.3430575583588128105e4, 2.5090809287301226727e3],
  [1, 4.2313330701600911252e1, 6.8718700749205790830e2, 5.3941960214247511077e3, 2.1213794301586595867e4, 3.9307895800092710610e4, 2.8729085735721942674e4,
    5.2264952788528545610e3],
];
const FAR = [
  [1.42343711074968357734e0, 4.63033784615654529590e0, 5.76949722146069140550e0, 3.64784832476320460504e0, 1.27045825245236838258e0,
    2.41780725177450611770e-1, 2.27238449892691845833e-2, 7.74545014278341407640e-4],
  [1, 2.05319162663775882187e0, 1.67638483018380384940e0, 6.89767334985100004550e-1, 1.48103976427480074590e-1, 1.51986665636164571966e-2,
    5.47593808499534494600e-4, 1.05075007164441684324e-9],
];
const FARTHEST = [
  [6.65790464350110377720e0, 5.46378491116411436990e0, 1.78482653991729133580e0, 2.96560571828504891230e-1, 2.65321895265761230930e-2,
    1.24266094738807843860e-3, 2.71155556874348757815e-5, 2.01033439929228813265e-7],
  [1, 5.99832206555887937690e-1, 1.36929880922735805310e-1, 1.48753612908506148525e-2, 7.86869131145613259100e-4, 1.84631831751005468180e-5,
    1.42151175831644588870e-7, 2.04426310338993978564e-15],
];

/** @param {number[][]} table @param {number} r */
function rational(table, r) {
  const [above, below] = table.map((row) => row.reduceRight((sum, one) => sum * r + one, 0));
  return above / below;
}

/** The quantile of the standard normal of a share between 0 and 1.
 * @param {number} share */
export function normalQuantile(share) {
  const q = share - 0.5;
  if (Math.abs(q) <= 0.425) return q * rational(NEAR, 0.180625 - q * q);
  const r = Math.sqrt(-Math.log(Math.min(share, 1 - share)));
  const size = r <= 5 ? rational(FAR, r - 1.6) : rational(FARTHEST, r - 5);
  return q < 0 ? -size : size;
}
