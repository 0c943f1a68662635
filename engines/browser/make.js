'use strict';
// node engines/browser/make.js OUT [--print] FILE..
//
// A page for plain scripts, in the order of the words. With --print there is a function `print` that writes to the
// console. OUT gets index.html, hooks.js, host.js, and for each script N.js. Opened in a browser, the page runs the
// scripts and shows a link for the record of each; with `#text` the records stand in the page as text, for
// `chromium --headless --dump-dom`.

const fs = require('fs');
const path = require('path');
const command = require('../command.js');
const hooksText = require('../hooks/text.js');
const { weave } = require('../weave.js');

const PRINT = '<script>window.print = function print() { console.log.apply(console, arguments); };</script>\n';

function inScript(value) {
  return JSON.stringify(value).replace(/[<\u2028\u2029]/g, c => '\\u' + c.charCodeAt(0).toString(16).padStart(4, '0'));
}

// The rewritten script and the tags of a page that run it.
function scriptOf(name, n) {
  const source = fs.readFileSync(name, 'utf8');
  const made = weave(source, { number: n, hooks: 'J$_' + n });
  const tag = `<script src="${n}.js"></script>\n`;
  if (made.refused) {
    process.stderr.write(`jlint: not woven ${name}: ${made.refused}\n`);
    return { text: source, tags: tag };
  }
  const table = inScript({ name, head: made.head, table: made.table });
  return { text: made.text, tags: `<script>jlintPage.add(${n}, ${table})</script>\n${tag}` };
}

function pageOf(tags) {
  return `<!doctype html>
<html lang="en"><head><meta charset="utf-8"><title>jlint: a run in this browser</title>
<script src="hooks.js"></script>
<script src="host.js"></script>
</head><body>
${tags}<ul id="jlint-records"></ul>
<script>addEventListener('load', function () { jlintPage.show(document.getElementById('jlint-records')); });</script>
</body></html>
`;
}

// Writes the page. `print` says whether there is a function of that name.
function makePage(out, names, print) {
  fs.mkdirSync(out, { recursive: true });
  const put = (name, text) => fs.writeFileSync(path.join(out, name), text);
  const scripts = names.map(scriptOf);
  scripts.forEach(({ text }, n) => put(`${n}.js`, text));
  put('hooks.js', `var jlintHooks = ${hooksText()};\n`);
  put('host.js', fs.readFileSync(path.join(__dirname, 'host.js')));
  put('index.html', pageOf((print ? PRINT : '') + scripts.map(({ tags }) => tags).join('')));
}

function main(words) {
  const [out, ...names] = words.filter(word => word !== '--print');
  if (names.length === 0) throw new Error('usage: node make.js OUT [--print] FILE..');
  makePage(out, names, words.includes('--print'));
}

module.exports = { makePage };
if (require.main === module) command(main);
