'use strict';
// Words that are wrong, and what is missing: a line on standard error with status 2, and nothing of the program is run.

const assert = require('assert');
const fs = require('fs');
const path = require('path');
const { spawnSync } = require('child_process');
const { test } = require('node:test');
const { ENGINES, NO_ACORN, hasAcorn, inNewFolder } = require('./support.js');

const skip = hasAcorn ? false : NO_ACORN;

// A file that may be run stands for the program: the words are looked at before it is.
function inFolderWithProgram(body) {
  return inNewFolder(folder => {
    fs.writeFileSync(path.join(folder, 'app.js'), 'console.log("ran");\n');
    fs.writeFileSync(path.join(folder, 'jlint'), '#!/bin/sh\nexit 0\n', { mode: 0o755 });
    body(folder);
  });
}

function ran(cwd, words, env) {
  const all = { ...process.env, JLINT: path.join(cwd, 'jlint'), JLINT_FILES: '', JLINT_STATUS: '', ...env };
  const { status, stdout, stderr } = spawnSync(process.execPath, words, { cwd, env: all });
  return { status, out: stdout.toString(), err: stderr.toString() };
}

function assertFailed({ status, out, err }, message) {
  assert.match(err, message);
  assert.strictEqual(err.trimEnd().split('\n').length, 1, err);
  assert.deepStrictEqual({ status, out }, { status: 2, out: '' });
}

const REGISTER = ['-r', path.join(ENGINES, 'register.js'), 'app.js'];
const WRONG = [
  ['JLINT_FILES', 'a(', /^jlint: JLINT_FILES is no regular expression: /],
  ['JLINT_RULES', 'nan-made,nan', /^jlint: JLINT_RULES: there is no rule 'nan'$/m],
  ['JLINT_RULES', 'no-radix,no-radix', /named twice/],
  ['JLINT_FORMAT', 'xml', /^jlint: JLINT_FORMAT is 'xml', and takes text, unix, json$/m],
  ['JLINT_TEXT', 'many', /^jlint: JLINT_TEXT is 'many', which is no whole number$/m],
  ['JLINT_STATUS', 'yes', /^jlint: JLINT_STATUS is 'yes', and takes 0, 1$/m],
  ['JLINT', './missing', /^jlint: there is no program \.\/missing/],
  ['JLINT', '.', /^jlint: there is no program \./],
  ['JLINT', './app.js', /^jlint: there is no program \.\/app\.js/],
  ['JLINT_RUN', 'app.js', /^jlint: E\w+: /]
];
for (const [name, value, message] of WRONG) {
  test(`${name}=${value}`, { skip }, () => inFolderWithProgram(folder => {
    assertFailed(ran(folder, REGISTER, { [name]: value }), message);
  }));
}

test('acorn is missing', () => inFolderWithProgram(folder => {
  // Node looks for packages beside the file and above it, and in the folders that the environment names.
  fs.cpSync(ENGINES, path.join(folder, 'engines'), { recursive: true });
  const words = ['-r', path.join(folder, 'engines', 'register.js'), 'app.js'];
  assertFailed(ran(folder, words, { NODE_PATH: '', HOME: folder }), /^jlint: the package acorn is not found: /);
}));

const COMMANDS = [
  ['report.js', [], /^jlint: usage: /],
  ['report.js', ['missing'], /^jlint: missing has no records: /],
  ['report.js', ['.', 'xml'], /^jlint: JLINT_FORMAT is 'xml'/],
  ['lcov.js', [], /^jlint: usage: /],
  ['lcov.js', ['.'], /^jlint: \. has no records: /],
  ['page.js', [], /^jlint: usage: /],
  ['page.js', ['.'], /^jlint: \. has no records: /],
  ['script.js', [], /^jlint: usage: /],
  ['script.js', ['missing.js'], /^jlint: ENOENT: .*missing\.js/],
  ['browser/make.js', ['out'], /^jlint: usage: /],
  ['browser/make.js', ['out', 'missing.js'], /^jlint: ENOENT: .*missing\.js/],
  ['browser/records.js', ['app.js'], /^jlint: usage: /],
  ['browser/records.js', ['app.js', 'out'], /^jlint: app\.js has no records: /]
];
for (const [name, words, message] of COMMANDS) {
  test([name, ...words].join(' '), { skip }, () => inFolderWithProgram(folder => {
    assertFailed(ran(folder, [path.join(ENGINES, name), ...words], {}), message);
  }));
}

test('a program that is not jlint is not taken for it', { skip }, () => inFolderWithProgram(folder => {
  const { status, out, err } = ran(folder, REGISTER, { JLINT_FILES: 'app' });
  assert.match(err, /^jlint: not woven app\.js: the program that JLINT names is not jlint$/m);
  assert.deepStrictEqual({ status, out }, { status: 0, out: 'ran\n' });
}));

// A report of so many lines that they are no arguments of one call; a shell script answers as `replay` would.
test('a report of 300,000 lines', { skip }, () => inFolderWithProgram(folder => {
  const lines = 300000;
  const put = (name, text, options) => fs.writeFileSync(path.join(folder, name), text, options);
  const answer = `seq -f "%.0f:1 nan-made 1" 1 ${lines}\necho "jlint: replayed hooks=1 reports=${lines}"\n`;
  put('jlint', `#!/bin/sh\ncat > /dev/null\n${answer}`);
  put('0.name', 'app.js');
  put('0.head', 'jlint-record 1\nrows 0\noff 0\n');
  const { status, stdout } = spawnSync(process.execPath, [path.join(ENGINES, 'report.js'), '.', 'unix'], {
    cwd: folder, env: { ...process.env, JLINT: path.join(folder, 'jlint') }, maxBuffer: 1 << 28
  });
  assert.strictEqual(status, 1);
  const written = stdout.toString().trimEnd().split('\n');
  assert.strictEqual(written.length, lines);
  assert.strictEqual(written[lines - 1], `app.js:${lines}:1: nan-made (1) [Warning/nan-made]`);
}));

test('a page of a source that is there no more', { skip }, () => inFolderWithProgram(folder => {
  const answer = '4:1 nan-made 1\\njlint: replayed hooks=1 reports=1\\n';
  fs.writeFileSync(path.join(folder, 'jlint'), `#!/bin/sh\ncat > /dev/null\nprintf '${answer}'\n`);
  fs.writeFileSync(path.join(folder, '0.name'), 'gone.js');
  fs.writeFileSync(path.join(folder, '0.head'), 'jlint-record 1\nrows 0\noff 0\n');
  const { status, out, err } = ran(folder, [path.join(ENGINES, 'page.js'), '.'], {});
  assert.deepStrictEqual({ status, err }, { status: 0, err: '' });
  assert.match(out, /gone\.js:4:1/);
}));

test('a reader that closes', { skip }, () => inFolderWithProgram(folder => {
  fs.writeFileSync(path.join(folder, 'jlint'),
    '#!/bin/sh\ncat > /dev/null\nseq -f "%.0f:1 nan-made 1" 1 90000\necho "jlint: replayed hooks=1 reports=90000"\n');
  fs.writeFileSync(path.join(folder, '0.name'), 'app.js');
  const command = `"${process.execPath}" "${path.join(ENGINES, 'report.js')}" . | head -n 1`;
  const { stdout, stderr } = spawnSync(command, {
    cwd: folder, shell: true, env: { ...process.env, JLINT: path.join(folder, 'jlint') }
  });
  assert.strictEqual(stdout.toString(), 'app.js:1:1 nan-made 1\n');
  assert.doesNotMatch(stderr.toString(), /Error|EPIPE/);
}));
