'use strict';
// What the tests of this folder share.

const fs = require('fs');
const os = require('os');
const path = require('path');
const { spawnSync } = require('child_process');

const ENGINES = path.join(__dirname, '..');
const NO_ACORN = 'the package acorn is not found';
const hasAcorn = (() => {
  try {
    return Boolean(require('acorn'));
  } catch (e) {
    return false;
  }
})();

// Why the tests can't be run, or false. They take the program that JLINT names, with its commands `record` and `replay`.
function missing() {
  if (!process.env.JLINT) return 'JLINT names no program';
  const { stdout } = spawnSync(process.env.JLINT, ['record', '--budget', '0'], { input: '' });
  if (!stdout || !stdout.toString().startsWith('jlint-record 1\n')) return 'the program that JLINT names has no `record`';
  return hasAcorn ? false : NO_ACORN;
}

// Calls `body` with a new folder, which is removed afterwards.
async function inNewFolder(body) {
  const folder = fs.mkdtempSync(path.join(os.tmpdir(), 'jlint-test-'));
  try {
    return await body(folder);
  } finally {
    fs.rmSync(folder, { recursive: true, force: true });
  }
}

const reportText = lines => lines.map(l => `${l.line}:${l.column} ${l.rule} ${l.count}\n`).join('');

module.exports = { ENGINES, NO_ACORN, hasAcorn, missing, inNewFolder, reportText };
