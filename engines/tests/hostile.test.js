'use strict';
// Scripts that would upset careless hooks: builtins that are redefined or gone, proxies, getters that throw, values that
// a record has no form for. Each is run as it stands and rewritten. It has to print the same and to end the same, `replay`
// has to accept the record, and the report has to be the file NAME.report, where there is one.

const assert = require('assert');
const fs = require('fs');
const path = require('path');
const { test } = require('node:test');
const { runScripts } = require('../script.js');
const { report } = require('../report.js');
const { readRun } = require('../run-folder.js');
const { missing, inNewFolder, reportText } = require('./support.js');

const FOLDER = path.join(__dirname, 'hostile');
const skip = missing();

function ran(file, folder, asIs) {
  let printed = '';
  const done = runScripts([file], { folder, asIs, print: text => { printed += text; } });
  return { printed, done };
}

for (const name of fs.readdirSync(FOLDER).filter(file => file.endsWith('.js'))) {
  test(name.slice(0, -'.js'.length), { skip }, () => inNewFolder(folder => {
    const file = path.join(FOLDER, name);
    const plain = ran(file, path.join(folder, 'plain'), true);
    const woven = ran(file, path.join(folder, 'woven'), false);
    assert.deepStrictEqual(woven.done.notWoven, []);
    assert.strictEqual(woven.printed, plain.printed);
    assert.strictEqual(woven.done.end, plain.done.end);
    const lines = report(readRun(woven.done.folder), 'all');
    const expected = file.replace(/js$/, 'report');
    if (fs.existsSync(expected)) assert.strictEqual(reportText(lines), fs.readFileSync(expected, 'utf8'));
  }));
}
