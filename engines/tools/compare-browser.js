'use strict';
// node engines/tools/compare-browser.js FOLDER..
//
// For scripts of the folders: the report of their run in a page of headless Chromium, by `replay`, against that of
// `jlint lint`, and the number of operations. Scripts that `lint` does not run to a normal end or a throw are counted
// apart. SAMPLE=N takes each Nth script, LIMIT is the most operations, JOBS how many pages are run side by side.

const fs = require('fs');
const os = require('os');
const path = require('path');
const { pathToFileURL } = require('url');
const { makePage } = require('../browser/make.js');
const { domOf } = require('../browser/headless.js');
const { takeRecords } = require('../browser/records.js');
const { report, summaryOf } = require('../report.js');
const { readRun } = require('../run-folder.js');
const { scriptsIn, linted, asLinted } = require('./linted.js');

const sample = Number(process.env.SAMPLE || 1);
const limit = Number(process.env.LIMIT || 600000);
const jobs = Number(process.env.JOBS || os.cpus().length);

async function filesOfRun(file, folder) {
  makePage(folder, [file], true);
  const dom = await domOf(`${pathToFileURL(path.join(folder, 'index.html'))}#text`);
  takeRecords(dom, path.join(folder, 'records'));
  return readRun(path.join(folder, 'records'));
}

// What is said of a script, in words.
async function comparison(file, folder) {
  const lint = linted(file);
  if (lint.other !== undefined) return [`lint ends otherwise: ${lint.other}`];
  if (lint.hooks > limit) return ['more operations than the limit'];
  const files = await filesOfRun(file, folder);
  if (files.length === 0) return ['NO RECORD'];
  const { operations, left } = summaryOf(files, [], []);
  return [
    asLinted(report(files, 'all')) === lint.report ? 'same report' : 'OTHER REPORT',
    operations + left === lint.hooks ? 'as many operations' : 'another number of operations'
  ];
}

async function compare(file, counts) {
  const folder = fs.mkdtempSync(path.join(os.tmpdir(), 'jlint-compare-'));
  const words = await comparison(file, folder).catch(e => [`NO ANSWER: ${e.message}`]);
  fs.rmSync(folder, { recursive: true, force: true });
  for (const word of words) counts.set(word, (counts.get(word) || 0) + 1);
  if (words.some(word => /OTHER|another|NO /.test(word))) console.log(`${file}: ${words.join('; ')}`);
}

async function main(folders) {
  const left = folders.flatMap(scriptsIn).filter((file, n) => n % sample === 0).reverse();
  const counts = new Map();
  const worker = async () => {
    while (left.length > 0) await compare(left.pop(), counts);
  };
  await Promise.all(Array.from({ length: jobs }, worker));
  for (const [word, count] of [...counts].sort()) console.log(`${count}\t${word}`);
}

main(process.argv.slice(2));
