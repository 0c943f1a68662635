'use strict';
// node engines/tools/compare.js FOLDER..
//
// For each script of the folders: the report of this engine's run, by `replay`, against that of `jlint lint`, and the
// number of operations; and what the rewritten script prints and how it ends, against the script as it stands on this
// engine. Scripts that `lint` does not run to a normal end or a throw are counted apart. LIMIT is the most operations.

const fs = require('fs');
const os = require('os');
const path = require('path');
const { runScripts } = require('../script.js');
const { report, summaryOf } = require('../report.js');
const { readRun } = require('../run-folder.js');
const { scriptsIn, linted, asLinted } = require('./linted.js');

const limit = Number(process.env.LIMIT || 600000);

function ran(file, folder, asIs) {
  let printed = '';
  const adapt = process.env.ADAPT === '1';
  const done = runScripts([file], { folder, asIs, adapt, print: text => { printed += text; }, timeout: 60000 });
  return { printed, end: done.end.split(' ')[0], done };
}

// Pairs of what is compared, as words.
function comparison(file, folder) {
  const lint = linted(file);
  if (lint.other !== undefined) return [`lint ends otherwise: ${lint.other}`];
  if (lint.hooks > limit) return ['more operations than the limit'];
  const woven = ran(file, path.join(folder, 'woven'), false);
  const plain = ran(file, path.join(folder, 'plain'), true);
  const files = readRun(woven.done.folder);
  const lines = asLinted(report(files, 'all'));
  const { operations, left } = summaryOf(files, [], []);
  const sameEnd = woven.printed === plain.printed && woven.end === plain.end;
  return [
    lines === lint.report ? 'same report' : 'OTHER REPORT',
    operations + left === lint.hooks ? `as many operations${left ? ', some left out' : ''}` : 'another number of operations',
    sameEnd ? 'prints and ends as it stands' : 'PRINTS OR ENDS OTHERWISE'
  ];
}

function main(folders) {
  const counts = new Map();
  for (const file of folders.flatMap(scriptsIn)) {
    const folder = fs.mkdtempSync(path.join(os.tmpdir(), 'jlint-compare-'));
    const words = comparison(file, folder);
    fs.rmSync(folder, { recursive: true, force: true });
    for (const word of words) counts.set(word, (counts.get(word) || 0) + 1);
    if (words.some(word => /OTHER|another/.test(word))) console.log(`${file}: ${words.join('; ')}`);
  }
  for (const [word, count] of [...counts].sort()) console.log(`${count}\t${word}`);
}

main(process.argv.slice(2));
