'use strict';
// Programs of several modules under register.js, each a folder of `modules`: output and status have to be those of the
// program as it stands, and the report the file `report`.

const assert = require('assert');
const fs = require('fs');
const path = require('path');
const { spawnSync } = require('child_process');
const { test } = require('node:test');
const { ENGINES, missing, inNewFolder } = require('./support.js');

const FOLDER = path.join(__dirname, 'modules');
const skip = missing();

function ran(cwd, words, env) {
  return spawnSync(process.execPath, [...words, 'app.js'], { cwd, env: { ...process.env, ...env } });
}

for (const name of fs.readdirSync(FOLDER)) {
  test(name, { skip }, () => inNewFolder(folder => {
    const program = path.join(folder, 'program');
    fs.cpSync(path.join(FOLDER, name), program, { recursive: true });
    const answer = path.join(folder, 'report.json');
    const plain = ran(program, [], {});
    const words = ['-r', path.join(ENGINES, 'register.js')];
    const woven = ran(program, words, { JLINT_FORMAT: 'json', JLINT_OUT: answer, JLINT_RULES: 'all', JLINT_FILES: '' });
    assert.strictEqual(woven.stdout.toString(), plain.stdout.toString(), woven.stderr.toString());
    assert.strictEqual(woven.status, plain.status);
    const { lines, summary } = JSON.parse(fs.readFileSync(answer, 'utf8'));
    assert.deepStrictEqual(summary.notWoven, []);
    const text = lines.map(l => `${l.file}:${l.line}:${l.column} ${l.rule} ${l.count}\n`).join('');
    assert.strictEqual(text, fs.readFileSync(path.join(program, 'report'), 'utf8'));
  }));
}

const SUM = `'use strict';
exports.sum = function (list) {
  var total;
  for (var i = 0; i < list.length; i++) total += list[i];
  return total;
};
`;
const SUM_TEST = `'use strict';
require('node:test')('a sum is a number', function () {
  require('assert').strictEqual(typeof require('../sum.js').sum([1, 2]), 'number');
});
`;

// Each file of tests is a process of its own, with a report of its own.
test("node's test runner", { skip }, () => inNewFolder(folder => {
  fs.mkdirSync(path.join(folder, 'test'));
  fs.writeFileSync(path.join(folder, 'sum.js'), SUM);
  fs.writeFileSync(path.join(folder, 'test', 'sum.test.js'), SUM_TEST);
  const words = `--require=${JSON.stringify(path.join(ENGINES, 'register.js'))}`;
  const own = { NODE_OPTIONS: words, JLINT_OUT: 'jlint.%p.txt', JLINT_FORMAT: 'unix', JLINT_FILES: '', JLINT_RUN: '' };
  const env = { ...process.env, ...own };
  delete env.NODE_TEST_CONTEXT; // which the runner of this file has set
  const run = spawnSync(process.execPath, ['--test'], { cwd: folder, env });
  assert.strictEqual(run.status, 0, run.stdout.toString() + run.stderr.toString());
  const reports = fs.readdirSync(folder).filter(name => /^jlint\.\d+\.txt$/.test(name));
  const lines = reports.map(name => fs.readFileSync(path.join(folder, name), 'utf8')).join('');
  assert.match(lines, /^sum\.js:4:\d+: nan-made \(1\) \[Warning\/nan-made\]$/m);
}));

// Newer nodes load it, as strict code without `module`; older ones throw.
test('an ECMAScript module that is required', { skip }, () => inNewFolder(folder => {
  fs.mkdirSync(path.join(folder, 'inner'));
  fs.writeFileSync(path.join(folder, 'inner', 'package.json'), '{ "type": "module" }');
  fs.writeFileSync(path.join(folder, 'inner', 'kind.js'), 'console.log(typeof module, typeof this);\n');
  fs.writeFileSync(path.join(folder, 'app.js'),
    'try { require("./inner/kind.js"); } catch (e) { console.log(e.code); }\n');
  const plain = ran(folder, [], {});
  const woven = ran(folder, ['-r', path.join(ENGINES, 'register.js')], {});
  assert.strictEqual(woven.stdout.toString(), plain.stdout.toString(), woven.stderr.toString());
  assert.strictEqual(woven.status, plain.status);
}));
