'use strict';
// A page of scripts in headless Chromium (or the program that BROWSER names): what it records is reported as on node.

const assert = require('assert');
const fs = require('fs');
const path = require('path');
const { spawnSync } = require('child_process');
const { pathToFileURL } = require('url');
const { test } = require('node:test');
const { makePage } = require('../browser/make.js');
const { domOf } = require('../browser/headless.js');
const { takeRecords } = require('../browser/records.js');
const { report, summaryOf } = require('../report.js');
const { readRun } = require('../run-folder.js');
const { missing, inNewFolder } = require('./support.js');

function noBrowser() {
  const program = process.env.BROWSER || 'chromium';
  return spawnSync(program, ['--version']).status === 0 ? false : `${program} is not installed`;
}
const skip = missing() || noBrowser();

// The files of the run of these scripts, [name, text] each, in a page.
async function filesOf(folder, scripts, address) {
  const names = scripts.map(([name, text]) => {
    fs.writeFileSync(path.join(folder, name), text);
    return path.join(folder, name);
  });
  makePage(path.join(folder, 'page'), names, false);
  const dom = await domOf(pathToFileURL(path.join(folder, 'page', 'index.html')) + address);
  takeRecords(dom, path.join(folder, 'records'));
  return readRun(path.join(folder, 'records'));
}

const shownLine = l => `${path.basename(l.file)}:${l.line}:${l.column} ${l.rule} ${l.count}`;
const shown = files => report(files, 'all').map(shownLine);

test('scripts share a page and the names that they declare', { skip }, () => inNewFolder(async folder => {
  const files = await filesOf(folder, [
    ['first.js', 'var made = 0 / 0, text = /<&"/.exec("a<&\\"") + undefined;\nfunction twice(n) { return n * 2; }\n'],
    ['second.js', 'document.title = twice("x") + ("area " + undefined);\n']
  ], '#text');
  assert.deepStrictEqual(shown(files), ['first.js:1:12 nan-made 1', 'first.js:1:26 undefined-joined 1',
    'first.js:1:26 object-joined 1', 'first.js:2:28 nan-made 1', 'second.js:1:32 undefined-joined 1']);
}));

test('timers and an uncaught throw are recorded', { skip }, () => inNewFolder(async folder => {
  const files = await filesOf(folder, [
    ['throws.js', '"a" - 1;\nnull.x;\n'],
    ['timers.js', 'setTimeout(function () {\n  parseInt("7");\n}, 20);\n']
  ], '#text=1000');
  assert.deepStrictEqual(shown(files), ['throws.js:1:1 nan-made 1', 'timers.js:2:3 no-radix 1']);
}));

test('fractions and regular expressions are left out and counted', { skip }, () => inNewFolder(async folder => {
  const files = await filesOf(folder, [['left.js', 'var a = 1.5, b = a + 1, c = /x/;\n']], '#text');
  assert.deepStrictEqual(shown(files), []);
  const { reasons } = summaryOf(files, [], []);
  assert.ok(reasons.fraction > 0 && reasons['regular expression'] > 0, JSON.stringify(reasons));
}));
