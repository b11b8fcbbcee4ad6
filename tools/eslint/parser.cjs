// The parser of Debian's eslint for the modules of the planner's page: eslint 6 brings one that ends with ES2019, and Debian's espree and
// eslint-scope, which are packages of their own, read ES2022. Tested, not proved.
const espree = require("espree"), scopes = require("eslint-scope"), { KEYS } = require("eslint-visitor-keys");

const LANGUAGE = { ecmaVersion: 2022, sourceType: "module" };

exports.parseForESLint = (text) => {
  const ast = espree.parse(text, { ...LANGUAGE, loc: true, range: true, tokens: true, comment: true });
  return { ast, visitorKeys: KEYS, scopeManager: scopes.analyze(ast, { ...LANGUAGE, childVisitorKeys: KEYS, fallback: "iteration" }) };
};
