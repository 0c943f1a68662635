'use strict';
// The rows that are made of a tree are those that the program lists (`map`), on all scripts of the repository's examples
// that it accepts, and on those of the folders that JLINT_SCRIPTS names (separated by `:`).

const assert = require('assert');
const fs = require('fs');
const path = require('path');
const { test } = require('node:test');
const { spawnSync } = require('child_process');
const { ENGINES, NO_ACORN, hasAcorn } = require('./support.js');

const noProgram = process.env.JLINT ? false : 'JLINT names no program';
const skip = noProgram || (hasAcorn ? false : NO_ACORN);

function scriptsIn(folder) {
  return fs.readdirSync(folder, { withFileTypes: true }).flatMap(entry => {
    const name = path.join(folder, entry.name);
    if (entry.isDirectory()) return scriptsIn(name);
    return entry.name.endsWith('.js') ? [name] : [];
  });
}

// The lines of `map` for what a tree gives, or null where the program refuses the script.
function pairOf(file) {
  const { parseWithComments } = require('../adapt.js');
  const { headOf } = require('../rows.js');
  const text = fs.readFileSync(file, 'utf8');
  const { stdout, status } = spawnSync(process.env.JLINT, ['map'], { input: text, maxBuffer: 1 << 28 });
  if (status !== 0) return null;
  const lines = headOf(text, parseWithComments(text), (line, column) => [line, column]).text.split('\n').slice(2);
  const rows = lines.slice(0, lines.findIndex(line => line.startsWith('off ')));
  return { made: rows.map((row, i) => `${i + 1} ${row}\n`).join(''), listed: stdout.toString() };
}

const folders = [path.join(ENGINES, '..', 'examples'), ...(process.env.JLINT_SCRIPTS || '').split(':').filter(Boolean)];
for (const folder of folders) {
  test(`rows of ${folder}`, { skip }, () => {
    let accepted = 0;
    for (const file of scriptsIn(folder)) {
      const pair = pairOf(file);
      if (pair === null) continue;
      accepted++;
      assert.strictEqual(pair.made, pair.listed, file);
    }
    assert.ok(accepted > 0);
  });
}

test('comments that switch rules off', { skip }, () => {
  const { parseWithComments } = require('../adapt.js');
  const { headOf } = require('../rows.js');
  const text = '0 / 0; // jlint-off nan-made\n// jlint-off-next no-radix,nan-made  \n1; // jlint-off nan\n/* jlint-off nan-made */\n';
  const head = headOf(text, parseWithComments(text), (line, column) => [line, column]);
  const off = head.text.split('\n').slice(-5, -1);
  assert.deepStrictEqual(off, ['off 3', '1 nan-made', '3 nan-made', '3 no-radix']);
});
