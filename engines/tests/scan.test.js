'use strict';
// The pass over a rewritten text, and what files need before they are rewritten. These tests take no program.

const assert = require('assert');
const { test } = require('node:test');
const { scan } = require('../scan.js');
const { NO_ACORN, hasAcorn } = require('./support.js');

const skip = hasAcorn ? false : NO_ACORN;

test('a function is entered with the call that it leaves', () => {
  const woven = 'function f(a, b) {\ntry {\nJ$.E(3);\nreturn J$.V(4, arguments);\n} finally {\nJ$.L(4);\n}\n}\n';
  const { text, functions } = scan(woven, { number: 7 });
  assert.ok(text.includes('let J$call = J$.E(3, 7, this, arguments.length, new.target); try {'));
  assert.ok(text.includes('J$.L(4, J$call);'));
  assert.deepStrictEqual(functions, [{ id: 3, params: 2, mentions: true, name: null }]);
});

test('ids of strict code are told as ranges', () => {
  const { strict } = scan('"use strict";\nJ$.S(1);\nJ$.X(2);\n', { number: 0 });
  assert.deepStrictEqual(strict, [[1, 2]]);
});

test('the hooks get the name that the caller chose', () => {
  assert.strictEqual(scan('J$.S(1);', { number: 0, hooks: 'J$_5' }).text, 'J$_5.S(1);');
});

test('a postfix operator evaluates to the old value', () => {
  const { text } = scan('J$.I(1, "++", o, "k") - 1;', { number: 0 });
  assert.strictEqual(text.trim(), 'J$.old(J$.I(1, "++", o, "k"), 1);');
});

test('regular expressions, fractions and left-out names come back', { skip }, () => {
  const { adapt } = require('../adapt.js');
  const { text, restore } = adapt('var r = /a/g, n = 1.5, d = Date;');
  assert.ok(!/\/a\/|1\.5|\bDate\b/.test(text));
  const prefix = /jl\$\d+_/.exec(text)[0];
  assert.strictEqual(restore(`J$.T(1, "${prefix}0") J$.T(2, "${prefix}1") ${prefix}Date`),
    'J$.regexp(1, /a/g) J$.T(2, 1.5) Date');
});

test('places are those of the file', { skip }, () => {
  const { adapt } = require('../adapt.js');
  const source = 'var a = 1.25; b = 0 / 0;';
  const { text, place } = adapt(source);
  assert.deepStrictEqual(place(1, text.indexOf('0 / 0') + 1), [1, source.indexOf('0 / 0') + 1]);
});

test('a file of a later edition is refused', { skip }, () => {
  const { adapt } = require('../adapt.js');
  assert.match(adapt('const a = 1;').refused, /^not of edition 5\.1/);
});
