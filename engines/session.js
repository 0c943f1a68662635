'use strict';
// One process under register.js: which modules are rewritten, their records, and the report at the end. It runs in a
// realm of its own (own-realm.js).

const fs = require('fs');
const os = require('os');
const path = require('path');
const { findAcorn } = require('./adapt.js');
const { findProgram } = require('./jlint.js');
const { weave } = require('./weave.js');
const { openRun, readRun, NOT_WOVEN } = require('./run-folder.js');
const { report, formatted, summaryOf, summaryText } = require('./report.js');
const settings = require('./settings.js');

function wanted(pattern, here) {
  if (pattern !== null) return file => pattern.test(file);
  return file => file.startsWith(here) && !/[\\/]node_modules[\\/]/.test(file);
}

// The report of a run, with its summary where the format has none of its own.
function reportText(folder, notWoven, env, format) {
  const files = readRun(folder);
  const lines = report(files, env.JLINT_RULES);
  const summary = summaryOf(files, notWoven, lines);
  return { text: formatted(format, lines, summary) + (format === 'text' ? summaryText(summary) : ''), lines };
}

// Writes to standard error, which the program may have made a pipe that takes a part at a time, or closed.
function say(text) {
  let rest = Buffer.from(text);
  while (rest.length > 0) {
    try {
      rest = rest.subarray(fs.writeSync(2, rest));
    } catch (e) {
      if (e.code !== 'EAGAIN') return;
    }
  }
}

// `name` is that of the process and thread. Throws where a word of the environment is wrong or something is missing.
module.exports = function session(env, name) {
  const given = settings(env);
  findProgram();
  findAcorn();
  const here = process.cwd() + path.sep;
  const isWanted = wanted(given.files, here);
  const shown = file => (file.startsWith(here) ? file.slice(here.length) : file);
  const folder = given.run ? path.resolve(given.run, name) : fs.mkdtempSync(path.join(os.tmpdir(), 'jlint-'));
  const out = given.out === null ? null : path.resolve(given.out.replace('%p', name));
  const run = openRun(folder);
  const woven = [];
  const notWoven = [];
  let hooks = null;
  let finished = false;

  function tryToWeave(source, format) {
    if (format === 'module') return { refused: 'an ECMAScript module' };
    try {
      return weave(source, { number: woven.length, module: true });
    } catch (e) {
      return { refused: e.message };
    }
  }

  // The number of report lines.
  function writeReport() {
    hooks.flush();
    woven.forEach((file, n) => run.left(n, file.counts().left));
    fs.writeFileSync(path.join(folder, NOT_WOVEN), JSON.stringify(notWoven));
    const { text, lines } = reportText(folder, notWoven, env, given.format);
    if (out !== null) fs.writeFileSync(out, text);
    else say(text);
    if (!given.run) fs.rmSync(folder, { recursive: true, force: true });
    return lines.length;
  }

  return {
    write: run.write,
    longest: given.longest,
    hasStatus: given.hasStatus,
    use(made) {
      hooks = made;
    },

    // The rewritten text and the hooks of a module; null where it runs as it stands. `format` is node's word for the
    // module's kind: newer ones have `require` load ECMAScript modules, too.
    take(source, file, format) {
      if (finished || !isWanted(file)) return null;
      const made = tryToWeave(source, format);
      if (made.refused) {
        notWoven.push({ name: shown(file), why: made.refused });
        return null;
      }
      run.add(shown(file), made.head);
      const hooked = hooks.file(made.table);
      woven.push(hooked);
      return { text: made.text, J$: hooked.J$ };
    },

    // Reports. Answers whether there is a report line, or no report could be made.
    finish() {
      if (finished) return false;
      finished = true;
      try {
        return writeReport() > 0;
      } catch (e) {
        say(`jlint: no report: ${e.message}; the records are in ${folder}\n`);
        return true;
      }
    }
  };
};
