'use strict';
// Places of a file: lines and columns, from 1; columns count UTF-16 units.

const LINE_TERMINATOR = /\r\n|[\n\r\u2028\u2029]/g;

function lineStarts(source) {
  return [0, ...Array.from(source.matchAll(LINE_TERMINATOR), m => m.index + m[0].length)];
}

const linesOf = source => source.split(LINE_TERMINATOR);

// From an offset to its line and column.
function placesIn(source) {
  const starts = lineStarts(source);
  return offset => {
    let low = 0;
    let high = starts.length;
    while (high - low > 1) {
      const middle = (low + high) >> 1;
      if (starts[middle] <= offset) low = middle;
      else high = middle;
    }
    return [low + 1, offset - starts[low] + 1];
  };
}

// The edits of each line, in order. Edits add no line but at the very end of the source.
function editsByLine(edits, starts) {
  const byLine = new Map();
  let line = 0;
  for (const { start, end, text } of edits) {
    while (line + 1 < starts.length && starts[line + 1] <= start) line++;
    if (!byLine.has(line + 1)) byLine.set(line + 1, []);
    byLine.get(line + 1).push({ column: start - starts[line] + 1, was: end - start, is: text.length });
  }
  return byLine;
}

// From a place in the edited text to the place in the source. Edits are sorted by their start.
function placesAfter(source, edits) {
  const starts = lineStarts(source);
  const byLine = editsByLine(edits, starts);
  return (line, column) => {
    let shift = 0;
    for (const { column: begin, was, is } of byLine.get(line) || []) {
      if (column < begin + shift) break;
      if (column < begin + shift + is) return [line, begin];
      shift += is - was;
    }
    return [Math.min(line, starts.length), column - shift];
  };
}

module.exports = { linesOf, placesIn, placesAfter };
