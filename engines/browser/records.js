'use strict';
// node engines/browser/records.js PAGE.html FOLDER
//
// Takes the records out of what `chromium --headless --dump-dom` wrote of a page that was opened with `#text`, and puts
// them where report.js, lcov.js and page.js read them.

const fs = require('fs');
const path = require('path');
const command = require('../command.js');

const CHARACTERS = { lt: '<', gt: '>', amp: '&', nbsp: '\u00a0', quot: '"' };
const unescaped = text => text.replace(/&(lt|gt|amp|nbsp|quot);/g, (all, name) => CHARACTERS[name]);

// Puts the records of a page into a folder.
function takeRecords(text, folder) {
  const all = pattern => [...text.matchAll(pattern)].map(m => unescaped(m[1]));
  const names = all(/<li><a download=[^>]*>([^<]*)<\/a>/g);
  const records = all(/<pre class="record">([^]*?)<\/pre>/g);
  const left = all(/<pre class="left">([^]*?)<\/pre>/g);
  fs.mkdirSync(folder, { recursive: true });
  records.forEach((record, n) => {
    const ops = /^ops \d+\n/m.exec(record);
    const put = (part, lines) => fs.writeFileSync(path.join(folder, `${n}.${part}`), lines);
    put('name', names[n]);
    put('head', record.slice(0, ops.index));
    put('ops', record.slice(ops.index + ops[0].length, record.lastIndexOf('end\n')));
    put('left', left[n]);
  });
  return records.length;
}

function main([page, folder]) {
  if (!folder) throw new Error('usage: node records.js PAGE.html FOLDER');
  if (takeRecords(fs.readFileSync(page, 'utf8'), folder) === 0) {
    throw new Error(`${page} has no records: open the page with #text in its address, and save what it has become`);
  }
}

module.exports = { takeRecords };
if (require.main === module) command(main);
