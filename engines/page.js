'use strict';
// node engines/page.js FOLDER > PAGE.html
//
// The sources of a run on one page: how often each line ran in the margin, what never ran shaded, and report lines under
// their places. JLINT_DOCS is where the pages of the rules are, for links.

const command = require('./command.js');
const { countsOf, lineCounts } = require('./counts.js');
const { report } = require('./report.js');
const { readNamedRun, sourceLines } = require('./run-folder.js');

const STYLE = `
body { font: 14px sans-serif; margin: 2em } pre { margin: 0; font: 12px/1.4 monospace; white-space: pre }
table { border-collapse: collapse } td { padding: 0 .6em; vertical-align: top } .no { color: #999; text-align: right }
.n { color: #36c; text-align: right; border-right: 1px solid #ccc } .never { background: #fde7e7 }
.hit pre { background: #fff3c4; color: #730 } .gap pre { color: #a60 } li { margin: .1em 0 }
`;
const ENTITIES = { '&': '&amp;', '<': '&lt;', '>': '&gt;', '"': '&quot;' };

const escaped = text => text.replace(/[&<>"]/g, c => ENTITIES[c]);
function shortCount(n) {
  if (n < 1e4) return String(n);
  return n < 1e7 ? `${Math.round(n / 1e3)}k` : `${Math.round(n / 1e6)}M`;
}
const times = n => `${n} ${n === 1 ? 'time' : 'times'}`;

// Notes { line, column, text, rule } on what never happened.
function gapsOf({ rows, hits, yes, no }) {
  const gaps = [];
  for (const { id, kind, line, column } of rows) {
    const add = text => gaps.push({ line, column, text, rule: null });
    if (kind === 'FunctionEnter' && !hits[id]) add('function never entered');
    if (kind === 'Conditional' && !hits[id]) add('condition never reached');
    if (kind === 'Conditional' && hits[id] && !yes[id]) add('condition never true');
    if (kind === 'Conditional' && hits[id] && !no[id]) add('condition never false');
  }
  return gaps;
}

function noteHtml({ column, rule, text }) {
  const docs = process.env.JLINT_DOCS;
  const linked = docs && rule ? `<a href="${escaped(`${docs}/${rule}.md`)}">${rule}</a>` : rule;
  const word = rule ? `<b>${linked}</b> ` : '';
  const pre = `<pre>${' '.repeat(column - 1)}^ ${word}${text}</pre>`;
  return `<tr class="${rule ? 'hit' : 'gap'}"><td></td><td></td><td>${pre}</td></tr>`;
}

function lineHtml(file, line, text, count, notes) {
  const never = count === 0 ? ' class="never"' : '';
  const shown = count === undefined ? '' : shortCount(count);
  const cells = `<td class="no">${line}</td><td class="n">${shown}</td><td><pre>${escaped(text) || ' '}</pre></td>`;
  return `<tr id="${escaped(file.name)}-${line}"${never}>${cells}</tr>${notes.map(noteHtml).join('')}`;
}

function fileHtml(file, found) {
  const counts = countsOf(file);
  const lines = lineCounts(counts);
  const hits = found.map(l => ({ line: l.line, column: l.column, rule: l.rule, text: times(l.count) }));
  const notes = new Map();
  for (const note of hits.concat(gapsOf(counts))) {
    if (!notes.has(note.line)) notes.set(note.line, []);
    notes.get(note.line).push(note);
  }
  const source = sourceLines(file);
  const rows = source.map((text, i) => lineHtml(file, i + 1, text, lines.get(i + 1), notes.get(i + 1) || []));
  const left = file.left.reduce((n, l) => n + l.count, 0);
  const summary = `${file.operations} operations recorded, ${left} left out, ${found.length} report lines`;
  return `<h2>${escaped(file.name)}</h2><p>${summary}</p><table>${rows.join('\n')}</table>`;
}

function pageHtml(files, lines) {
  const links = lines.map(({ file, line, column, rule, count }) =>
    `<li><a href="#${escaped(file)}-${line}">${escaped(file)}:${line}:${column}</a> ${rule} ${count}</li>`);
  return `<!doctype html><html lang="en"><head><meta charset="utf-8"><title>jlint</title><style>${STYLE}</style></head>` +
    `<body><h1>jlint: ${lines.length} report lines in ${files.length} files</h1><ol>${links.join('')}</ol>\n` +
    files.map(file => fileHtml(file, lines.filter(l => l.file === file.name))).join('\n') + '</body></html>\n';
}

function main([folder], env) {
  if (!folder) throw new Error('usage: node page.js FOLDER > PAGE.html');
  const files = readNamedRun(folder);
  process.stdout.write(pageHtml(files, report(files, env.JLINT_RULES)));
}

module.exports = { pageHtml };
if (require.main === module) command(main);
