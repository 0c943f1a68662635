'use strict';
// node engines/script.js FILE..
//
// Runs plain scripts (no modules) one after the other in one fresh realm that has `print` and `console.log`, and reports.
// JLINT, JLINT_RULES, JLINT_FORMAT, JLINT_RUN and JLINT_TEXT as in register.js; JLINT_ADAPT=0 takes a file as it stands;
// JLINT_TIMEOUT is in milliseconds.

const fs = require('fs');
const os = require('os');
const path = require('path');
const vm = require('vm');
const { isNativeError } = require('util').types;
const command = require('./command.js');
const hooksText = require('./hooks/text.js');
const { findProgram } = require('./jlint.js');
const nodeHost = require('./node-host.js');
const { weave } = require('./weave.js');
const { openRun, readRun } = require('./run-folder.js');
const { report, formatted, summaryOf, summaryText } = require('./report.js');
const settings = require('./settings.js');

// `print` and `console.log` of the realm, which no `for-in` over the global object visits.
const PRINT = `
var print = (function (hostPrint, String) {
  return function print() {
    var line = "", i;
    for (i = 0; i < arguments.length; i++) line += (i ? " " : "") + String(arguments[i]);
    hostPrint(line);
  };
}(hostPrint, String));
delete this.hostPrint;
var console = { log: print };
Object.defineProperty(this, "print", { enumerable: false });
Object.defineProperty(this, "console", { enumerable: false });`;

function newRealm(print) {
  const realm = vm.createContext({});
  realm.hostPrint = line => print(line + '\n');
  vm.runInContext(PRINT, realm);
  return realm;
}

// Says what was thrown, and calls nothing of the script.
function described(thrown) {
  if (!isNativeError(thrown)) {
    const isObject = (thrown !== null && typeof thrown === 'object') || typeof thrown === 'function';
    return isObject ? 'an object' : String(thrown);
  }
  const stack = Object.getOwnPropertyDescriptor(thrown, 'stack');
  if (stack && typeof stack.value === 'string') {
    return /^.*/.exec(stack.value.replace(/^.*:\d+\n(.*\n)*?(?=\w*Error)/, ''))[0];
  }
  const message = Object.getOwnPropertyDescriptor(thrown, 'message');
  return 'an error' + (message && typeof message.value === 'string' ? ': ' + message.value : '');
}

class ScriptRun {
  constructor(options) {
    this.options = options;
    this.realm = newRealm(options.print);
    this.run = openRun(options.folder);
    const inRealm = text => vm.runInContext(text, this.realm);
    const host = nodeHost(this.run.write, {
      longest: options.longest,
      math: inRealm('Math'),
      builtins: [[inRealm('print'), 'print']]
    });
    this.hooks = inRealm(hooksText())(host);
    this.files = [];
    this.notWoven = [];
  }

  // The text to run: rewritten, or as it stands.
  prepared(name, source) {
    const number = this.files.length;
    const hooksName = 'J$_' + number;
    const made = this.options.asIs
      ? { refused: 'as it stands' }
      : weave(source, { number, hooks: hooksName, adapt: this.options.adapt });
    if (made.refused) {
      this.notWoven.push({ name, why: made.refused });
      return source;
    }
    this.run.add(name, made.head);
    const file = this.hooks.file(made.table);
    Object.defineProperty(this.realm, hooksName, { value: file.J$, enumerable: false });
    this.files.push(file);
    return made.text;
  }

  // How it ended: `normal`, or `thrown` and what.
  runFile(name) {
    const text = this.prepared(name, fs.readFileSync(name, 'utf8'));
    try {
      vm.runInContext(text, this.realm, { filename: name, timeout: this.options.timeout });
      return 'normal';
    } catch (e) {
      return 'thrown ' + described(e);
    }
  }

  finish() {
    this.hooks.flush();
    this.files.forEach((file, n) => this.run.left(n, file.counts().left));
  }
}

// Options: folder, print, adapt, asIs, longest, timeout. Answers { folder, end, notWoven, seconds }.
function runScripts(names, options) {
  const run = new ScriptRun(options);
  const begin = process.hrtime.bigint();
  let end = 'normal';
  for (const name of names) {
    end = run.runFile(name);
    if (end !== 'normal') break;
  }
  run.finish();
  const seconds = Number(process.hrtime.bigint() - begin) / 1e9;
  return { folder: options.folder, end, notWoven: run.notWoven, seconds };
}

function main(names, env) {
  if (names.length === 0) throw new Error('usage: node script.js FILE..');
  const given = settings(env);
  findProgram();
  const folder = given.run || fs.mkdtempSync(path.join(os.tmpdir(), 'jlint-'));
  try {
    const print = text => process.stdout.write(text);
    const { longest, timeout } = given;
    const done = runScripts(names, { folder, print, adapt: given.adapts, timeout, longest });
    const files = readRun(folder);
    const lines = report(files, env.JLINT_RULES);
    const summary = summaryOf(files, done.notWoven, lines);
    process.stdout.write(formatted(given.format, lines, summary));
    if (done.end !== 'normal') process.stderr.write(`uncaught ${done.end.slice('thrown '.length)}\n`);
    process.stderr.write(summaryText(summary));
    process.exitCode = lines.length ? 1 : 0;
  } finally {
    if (!given.run) fs.rmSync(folder, { recursive: true, force: true });
  }
}

module.exports = { runScripts };
if (require.main === module) command(main);
