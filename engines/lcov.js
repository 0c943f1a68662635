'use strict';
// node engines/lcov.js FOLDER > FILE.info
//
// What ran, as a tracefile of LCOV, from the records of a run. A line's count is that of its operation that came most
// often. Operations that were left out of the record are counted with those in it.

const path = require('path');
const command = require('./command.js');
const { countsOf, lineCounts } = require('./counts.js');
const { readNamedRun, sourceLines } = require('./run-folder.js');

function functionName(source, { line, column }) {
  const text = (source[line - 1] || '').slice(column - 1);
  const [, name, accessor] = /^(?:function\s+([^\s(]+)|[gs]et\s+([^\s(]+))/.exec(text) || [];
  return `${name || accessor || '(anonymous)'}@${line}:${column}`;
}

function functionLines(functions, hits, source) {
  return [
    ...functions.map(row => `FN:${row.line},${functionName(source, row)}`),
    ...functions.map(row => `FNDA:${hits[row.id]},${functionName(source, row)}`),
    `FNF:${functions.length}`,
    `FNH:${functions.filter(row => hits[row.id]).length}`
  ];
}

function branchLines(conditions, { hits, yes, no }) {
  const lines = conditions.flatMap(({ id, line }, block) => [yes, no].map((way, branch) =>
    `BRDA:${line},${block},${branch},${hits[id] ? way[id] : '-'}`));
  const taken = conditions.reduce((n, { id }) => n + (yes[id] ? 1 : 0) + (no[id] ? 1 : 0), 0);
  return [...lines, `BRF:${2 * conditions.length}`, `BRH:${taken}`];
}

function tracefile(file) {
  const counts = countsOf(file);
  const source = sourceLines(file);
  const ofKind = kind => counts.rows.filter(row => row.kind === kind);
  const lines = [...lineCounts(counts)].sort((a, b) => a[0] - b[0]);
  return [
    'TN:',
    `SF:${path.resolve(file.name)}`,
    ...functionLines(ofKind('FunctionEnter'), counts.hits, source),
    ...branchLines(ofKind('Conditional'), counts),
    ...lines.map(([line, count]) => `DA:${line},${count}`),
    `LF:${lines.length}`,
    `LH:${lines.filter(([, count]) => count).length}`,
    'end_of_record'
  ].join('\n') + '\n';
}

function main([folder]) {
  if (!folder) throw new Error('usage: node lcov.js FOLDER > FILE.info');
  readNamedRun(folder).forEach(file => process.stdout.write(tracefile(file)));
}

module.exports = { tracefile };
if (require.main === module) command(main);
