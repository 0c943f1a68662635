'use strict';
// How often each operation of a file's map came, from its record and from what was left out of it.

const FRAME_KINDS = new Set(['ScriptEnter', 'ScriptExit', 'FunctionEnter', 'FunctionExit']);
const FALSE_VALUES = new Set(['u', 'z', 'f', 'n0', 'nNaN', '""']);

function rowsOf(lines) {
  const count = Number(lines[1].split(' ')[1]);
  return lines.slice(2, 2 + count).map((text, i) => {
    const [, kind, line, column] = /^(\w+) (\d+):(\d+)$/.exec(text);
    return { id: i + 1, kind, line: Number(line), column: Number(column) };
  });
}

// { rows: [{ id, kind, line, column }], hits, yes, no }: by id how often it came, and as a condition was true or false.
function countsOf(file) {
  const lines = file.record.toString('latin1').split('\n');
  const rows = rowsOf(lines);
  const [hits, yes, no] = [1, 2, 3].map(() => new Float64Array(rows.length + 1));
  const off = Number(lines[2 + rows.length].split(' ')[1]);
  for (let i = 4 + rows.length + off; lines[i] !== 'end'; i++) {
    const line = lines[i];
    const space = line.indexOf(' ');
    const id = Number(line.slice(0, space));
    hits[id]++;
    if (rows[id - 1].kind === 'Conditional') {
      const value = line.slice(space + ' Conditional '.length);
      (FALSE_VALUES.has(value) ? no : yes)[id]++;
    }
  }
  for (const { id, truth, count } of file.left) {
    hits[id] += count;
    if (truth) (truth === 't' ? yes : no)[id] += count;
  }
  return { rows, hits, yes, no };
}

// By line the greatest count of its operations.
function lineCounts({ rows, hits }) {
  const lines = new Map();
  for (const { id, kind, line } of rows) {
    if (!FRAME_KINDS.has(kind)) lines.set(line, Math.max(lines.get(line) || 0, hits[id]));
  }
  return lines;
}

module.exports = { countsOf, lineCounts };
