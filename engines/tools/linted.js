'use strict';
// What the tools of this folder compare engines with: the scripts below a folder, and what `jlint lint` answers to one.

const fs = require('fs');
const path = require('path');
const { spawnSync } = require('child_process');

const END = /^jlint: (normal|thrown) steps=\d+ hooks=(\d+) reports=(\d+)$/;
const MOST_OUTPUT = 1 << 28; // bytes
const LONGEST = 30000; // milliseconds

function scriptsIn(folder) {
  return fs.readdirSync(folder, { withFileTypes: true }).sort((a, b) => (a.name < b.name ? -1 : 1)).flatMap(entry => {
    const name = path.join(folder, entry.name);
    if (entry.isDirectory()) return scriptsIn(name);
    return entry.name.endsWith('.js') ? [name] : [];
  });
}

// { hooks, report }, the number of operations and the report; or { other }, how else `lint` ended.
function linted(file) {
  const program = process.env.JLINT || 'jlint';
  const run = spawnSync(program, ['lint'], { input: fs.readFileSync(file), maxBuffer: MOST_OUTPUT, timeout: LONGEST });
  const lines = (run.stdout || '').toString().trimEnd().split('\n');
  const last = lines[lines.length - 1];
  const end = END.exec(last);
  if (!end) return { other: last.replace(/ at .*| steps.*/, '') || 'no answer' };
  const [, how, hooks, reports] = end;
  const body = lines.slice(0, lines.length - (how === 'thrown' ? 2 : 1));
  return { hooks: Number(hooks), report: Number(reports) ? body.slice(-Number(reports)).join('\n') : '' };
}

// Report lines as `lint` writes them.
const asLinted = lines => lines.map(l => `${l.line}:${l.column} ${l.rule} ${l.count}`).join('\n');

module.exports = { scriptsIn, linted, asLinted };
