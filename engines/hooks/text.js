'use strict';
// The hooks as one text, for a realm or a page that has no modules: an expression whose value is `jlintHooks`.

const fs = require('fs');
const path = require('path');

const PARTS = ['kept', 'objects', 'facts', 'operators', 'callees', 'properties', 'recorder', 'calls', 'letters', 'hooks'];

function definition(part) {
  const text = fs.readFileSync(path.join(__dirname, part + '.js'), 'utf8');
  return `define('./${part}.js', function (module, require) {${text}\n});\n`;
}

module.exports = function hooksText() {
  return '(function () {\n' +
    'var exported = {};\n' +
    'function require(name) { return exported[name]; }\n' +
    'function define(name, body) { var module = { exports: {} }; body(module, require); exported[name] = module.exports; }\n' +
    PARTS.map(definition).join('') +
    "return require('./hooks.js');\n}())";
};
