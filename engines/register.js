'use strict';
// node -r ./engines/register.js app.js
//
// Rewrites the CommonJS modules whose path matches JLINT_FILES as they are required, and reports when the process ends.
// Words come from the environment:
//
//   JLINT         the program (default: jlint on the path)
//   JLINT_FILES   a pattern of paths (default: all under the current folder outside of node_modules)
//   JLINT_RULES   names of rules joined by commas, or `all` (default: all but extra-arguments and shadow-write)
//   JLINT_FORMAT  text, unix or json
//   JLINT_OUT     a file for the report (default: standard error); %p in it stands for the process
//   JLINT_RUN     the records stay here, in a folder for each process
//   JLINT_TEXT    the longest text that is recorded (default 1000; an operation with a longer one is left out)
//   JLINT_STATUS  1: the process ends with status 1 where it would with 0 and there is a report line, or no report

const path = require('path');
const Module = require('module');
const { threadId } = require('worker_threads');
const jlintHooks = require('./hooks/hooks.js');
const nodeHost = require('./node-host.js');
const ownRealm = require('./own-realm.js');

const { apply, defineProperty } = Reflect;
const { kill } = process;
const processName = process.pid + (threadId ? '.' + threadId : '');

// Where a word is wrong, or the program or acorn is missing, nothing is run.
function begun() {
  try {
    return ownRealm(path.join(__dirname, 'session.js'))(process.env, processName);
  } catch (e) {
    process.stderr.write(`jlint: ${e.message}\n`);
    return process.exit(2);
  }
}
const session = begun();
session.use(jlintHooks(nodeHost(session.write, { longest: session.longest })));

// A module takes its hooks from its own `module`, and runs in a function inside of node's wrapper, so that its
// directives, declarations and line numbers are as in the rewritten text.
const KEY = 'jlint hooks';
const compile = Module.prototype._compile;
Module.prototype._compile = function (source, file, format) {
  const woven = session.take(source, file, format);
  if (woven === null) return apply(compile, this, arguments);
  defineProperty(this, KEY, { __proto__: null, configurable: true, value: woven.J$ });
  const text = `return (function (J$) { delete module["${KEY}"]; ` +
    `return function (exports, require, module, __filename, __dirname) {${woven.text}\n}; ` +
    `})(module["${KEY}"]).apply(this, arguments);`;
  return apply(compile, this, [text, file, format]);
};

// The program's require.cache holds the program's modules alone.
for (const name of Object.keys(require.cache)) {
  if (name.startsWith(__dirname + path.sep)) delete require.cache[name];
}

process.on('exit', () => {
  const failed = session.finish();
  if (session.hasStatus && failed && !process.exitCode) process.exitCode = 1;
});

// A signal that nobody else handles would end the process without 'exit'.
for (const signal of ['SIGINT', 'SIGTERM', 'SIGHUP']) {
  process.on(signal, function reportFirst() {
    if (process.listenerCount(signal) > 1) return;
    session.finish();
    process.removeListener(signal, reportFirst);
    kill(process.pid, signal);
  });
}
