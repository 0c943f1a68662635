'use strict';
// The ways in which a process under register.js may end: the report has to come each time, and output, status and signal
// have to be those of the process without it.

const assert = require('assert');
const fs = require('fs');
const path = require('path');
const { spawn, spawnSync } = require('child_process');
const { test } = require('node:test');
const { ENGINES, missing } = require('./support.js');

const skip = missing();
const NAN = 'function n() { return 0 / 0; } n(); ';
const READY = 'setInterval(n, 10); console.log("ready");';
const AFTER_READY = 1000; // milliseconds until a signal is sent
const REPORTED = /^app.js:1:23 nan-made \d+$/m;

const ROWS = [
  ['normal', NAN],
  ['process.exit in a function', NAN + '(function () { process.exit(5); })();'],
  ['exit from a timer', NAN + 'setTimeout(function () { n(); process.exit(6); }, 5);'],
  ['uncaught error', NAN + 'null.x;'],
  ['uncaught error in a timer', NAN + 'setTimeout(function () { throw 1; }, 5);'],
  ['unhandled rejection', NAN + 'Promise.reject(new Error("r"));'],
  ['exitCode', NAN + 'process.exitCode = 9;'],
  ['exit handler of the program', NAN + 'process.on("exit", function (c) { console.log("bye", c); });'],
  ['a module with a syntax error', NAN + 'try { require("./bad.js"); } catch (e) { console.log(e.name); }'],
  ['SIGTERM', NAN + READY, 'SIGTERM'],
  ['SIGINT', NAN + READY, 'SIGINT'],
  ['SIGTERM that the program handles',
    NAN + 'process.on("SIGTERM", function () { console.log("mine"); process.exit(4); }); ' + READY, 'SIGTERM'],
  ['SIGKILL, reported afterwards', NAN + 'for (var i = 0; i < 3000; i++) n(); ' + READY, 'SIGKILL']
];

function ran(cwd, words, signal, env) {
  return new Promise(resolve => {
    const child = spawn(process.execPath, [...words, 'app.js'], { cwd, env: { ...process.env, ...env } });
    let out = '';
    child.stdout.on('data', data => {
      out += data;
      if (signal && out === 'ready\n') setTimeout(() => child.kill(signal), AFTER_READY);
    });
    child.on('close', (status, ended) => resolve({ status, signal: ended, out }));
  });
}

// The report that the process wrote, or that is made of its records.
function reportOf(folder, kept, signal) {
  if (signal !== 'SIGKILL') return fs.readFileSync(path.join(folder, 'out'), 'utf8');
  const run = path.join(kept, fs.readdirSync(kept)[0]);
  return spawnSync(process.execPath, [path.join(ENGINES, 'report.js'), run]).stdout.toString();
}

async function pair(folder, source, signal) {
  fs.writeFileSync(path.join(folder, 'app.js'), source);
  fs.writeFileSync(path.join(folder, 'bad.js'), 'var = 1;');
  const kept = path.join(folder, 'kept');
  const env = { JLINT_RUN: kept, JLINT_OUT: path.join(folder, 'out'), JLINT_FILES: '' };
  const plain = await ran(folder, [], signal, {});
  const woven = await ran(folder, ['-r', path.join(ENGINES, 'register.js')], signal, env);
  return { plain, woven, report: reportOf(folder, kept, signal) };
}

for (const [name, source, signal] of ROWS) {
  test(name, { skip }, async () => {
    const folder = fs.mkdtempSync(path.join(require('os').tmpdir(), 'jlint-test-'));
    const { plain, woven, report } = await pair(folder, source, signal);
    fs.rmSync(folder, { recursive: true, force: true });
    assert.deepStrictEqual(woven, plain);
    assert.match(report, REPORTED);
  });
}

test('a module that is of a later edition runs as it stands, and is named', { skip }, async () => {
  const folder = fs.mkdtempSync(path.join(require('os').tmpdir(), 'jlint-test-'));
  const { plain, woven, report } = await pair(folder, NAN + 'const x = 1; console.log(x);', undefined);
  fs.rmSync(folder, { recursive: true, force: true });
  assert.deepStrictEqual(woven, plain);
  assert.match(report, /not woven app.js: not of edition/);
});

test('where no report can be made, the program ends as it does, and JLINT_STATUS=1 says so', { skip }, async () => {
  const folder = fs.mkdtempSync(path.join(require('os').tmpdir(), 'jlint-test-'));
  fs.writeFileSync(path.join(folder, 'app.js'), NAN + 'process.on("exit", function (c) { console.log("bye", c); });');
  const words = ['-r', path.join(ENGINES, 'register.js')];
  const env = { JLINT_OUT: path.join(folder, 'missing', 'out'), JLINT_RUN: path.join(folder, 'kept'), JLINT_FILES: '' };
  const plain = await ran(folder, [], undefined, {});
  const woven = await ran(folder, words, undefined, { ...env, JLINT_STATUS: '0' });
  const checked = await ran(folder, words, undefined, { ...env, JLINT_STATUS: '1' });
  fs.rmSync(folder, { recursive: true, force: true });
  assert.deepStrictEqual(woven, plain);
  assert.strictEqual(checked.status, 1);
});

// A pipe whose reader is late takes a part of the report at a time.
test('a long report reaches a late reader', { skip }, () => {
  const folder = fs.mkdtempSync(path.join(require('os').tmpdir(), 'jlint-test-'));
  const lines = 1000;
  const long = 'x'.repeat(200);
  fs.writeFileSync(path.join(folder, 'app.js'), `console.error("begin"); require("./${long}.js");`);
  fs.writeFileSync(path.join(folder, long + '.js'), 'undefined + 1;\n'.repeat(lines));
  const command = `"${process.execPath}" -r "${path.join(ENGINES, 'register.js')}" app.js 2>&1 | (sleep 3; cat)`;
  const env = { ...process.env, JLINT_OUT: '', JLINT_FILES: '' };
  const { stdout } = spawnSync(command, { shell: true, cwd: folder, env });
  fs.rmSync(folder, { recursive: true, force: true });
  assert.strictEqual(stdout.toString().split('\n').filter(line => / nan-made 1$/.test(line)).length, lines);
});
