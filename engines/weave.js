'use strict';
// From a file to the text that an engine runs, with the table that its hooks take.
//
//   weave(source, { number, hooks, module, adapt }) -> { text, table, head }  or  { refused }
//
// `head` begins the file's record (its rows and what comments switch off), with the places of the file. Where the file
// was transpiled and ends in an inline source map, they are the places of its original.

const { SourceMap } = require('module');
const { jlint } = require('./jlint.js');
const { adapt, asItStands, parseWithComments } = require('./adapt.js');
const { headOf } = require('./rows.js');
const { CALL, scan } = require('./scan.js');

const INLINE_MAP = /\/\/[#@] sourceMappingURL=data:application\/json;(?:charset=[^;]*;)?base64,(\S+)\s*$/;

// From a place of the file to the place that it was transpiled from.
function originalPlaces(source) {
  const inline = INLINE_MAP.exec(source);
  if (!inline) return place => place;
  const map = new SourceMap(JSON.parse(Buffer.from(inline[1], 'base64').toString()));
  return ([line, column]) => {
    const entry = map.findEntry(line - 1, column - 1);
    return entry.originalLine === undefined ? [line, column] : [entry.originalLine + 1, entry.originalColumn + 1];
  };
}

function refusal(answer, place) {
  return answer.trim().slice('jlint: refused '.length)
    .replace(/(\d+):(\d+)$/, (all, line, column) => place(Number(line), Number(column)).join(':'));
}

// The rows and the switched-off rules of a record of the program's own, with other places.
function headOfRecord(record, place) {
  const lines = record.split('\n');
  const rows = Number(lines[1].split(' ')[1]);
  for (let i = 2; i < 2 + rows; i++) {
    const [kind, at] = lines[i].split(' ');
    const [line, column] = at.split(':');
    lines[i] = `${kind} ${place(Number(line), Number(column)).join(':')}`;
  }
  const off = Number(lines[2 + rows].split(' ')[1]);
  return { rows, text: lines.slice(0, 3 + rows + off).join('\n') + '\n' };
}

// The head of the file's record, which has a row for each id of the rewritten text. Where the tree has another number of
// rows, the program is asked: a run of no steps is recorded.
function head(text, lastId, place) {
  const made = headOf(text, parseWithComments(text), place);
  return made.rows === lastId ? made : headOfRecord(jlint(['record', '--budget', '0'], text), place);
}

function weave(source, options) {
  const original = originalPlaces(source);
  const code = source.replace(INLINE_MAP, '');
  const adapted = options.adapt === false ? asItStands(code) : adapt(code, options);
  if (adapted.refused) return adapted;
  const woven = jlint(['instrument'], adapted.text);
  if (woven.startsWith('jlint: refused')) return { refused: refusal(woven, adapted.place) };
  if (!woven.includes('J$.S(1);')) throw new Error('the program that JLINT names is not jlint');
  if (woven.includes(CALL)) return { refused: 'uses the name ' + CALL };
  const { text, functions, strict, lastId } = scan(woven, options);
  const { rows, text: begin } = head(adapted.text, lastId, (line, column) => original(adapted.place(line, column)));
  return {
    text: adapted.restore(text),
    table: { number: options.number, rows, functions, strict },
    head: begin
  };
}

module.exports = { weave };
