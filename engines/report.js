'use strict';
// The report of a run, by jlint's proved rules.
//
//   node report.js FOLDER [FORMAT]      of a run that is over, or was killed

const fs = require('fs');
const path = require('path');
const command = require('./command.js');
const { jlint } = require('./jlint.js');
const { readNamedRun, NOT_WOVEN } = require('./run-folder.js');
const settings = require('./settings.js');

function reportLine(file, line) {
  const [, at, column, rule, count] = /^(\d+):(\d+) (\S+) (\d+)$/.exec(line);
  return { file, line: Number(at), column: Number(column), rule, count: Number(count) };
}

// Report lines { file, line, column, rule, count } of the files of a run. JLINT_RULES names rules, or `all`.
function report(files, named) {
  const chosen = settings.chosenRules(named);
  const lines = [];
  for (const { name, record } of files) {
    const answer = jlint(['replay', ...chosen], record).trimEnd().split('\n');
    const last = answer.pop();
    if (!last.startsWith('jlint: replayed')) throw new Error(`${name}: ${last}`);
    for (const line of answer) lines.push(reportLine(name, line)); // may be more than a call takes arguments
  }
  return lines;
}

const formats = {
  text: lines => lines.map(l => `${l.file}:${l.line}:${l.column} ${l.rule} ${l.count}\n`).join(''),
  unix: lines => lines
    .map(l => `${l.file}:${l.line}:${l.column}: ${l.rule} (${l.count}) [Warning/${l.rule}]\n`).join(''),
  json: (lines, summary) => JSON.stringify({ lines, summary }, null, 1) + '\n'
};

function formatted(name, lines, summary) {
  return formats[name](lines, summary);
}

function summaryOf(files, notWoven, lines) {
  const reasons = {};
  let left = 0;
  for (const file of files) {
    for (const { reason, count } of file.left) {
      left += count;
      reasons[reason] = (reasons[reason] || 0) + count;
    }
  }
  const operations = files.reduce((n, file) => n + file.operations, 0);
  return { files: files.length, notWoven, operations, left, reasons, reports: lines.length };
}

function summaryText({ files, notWoven, operations, left, reasons, reports }) {
  const why = Object.entries(reasons).sort((a, b) => b[1] - a[1]).map(([reason, n]) => `${reason} ${n}`).join(', ');
  return notWoven.map(file => `jlint: not woven ${file.name}: ${file.why}\n`).join('') +
    `jlint: files=${files} not-woven=${notWoven.length} hooks=${operations} left-out=${left}` +
    `${why ? ` (${why})` : ''} reports=${reports}\n`;
}

function main([folder, format], env) {
  if (!folder) throw new Error('usage: node report.js FOLDER [text|unix|json]');
  const { format: name } = settings({ ...env, JLINT_FORMAT: format || env.JLINT_FORMAT });
  const files = readNamedRun(folder);
  const lines = report(files, env.JLINT_RULES);
  const notWoven = path.join(folder, NOT_WOVEN);
  const summary = summaryOf(files, fs.existsSync(notWoven) ? JSON.parse(fs.readFileSync(notWoven)) : [], lines);
  process.stdout.write(formatted(name, lines, summary));
  process.stderr.write(summaryText(summary));
  process.exitCode = lines.length ? 1 : 0;
}

module.exports = { report, formatted, summaryOf, summaryText };
if (require.main === module) command(main);
