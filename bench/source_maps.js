// node source_maps.js MAP: reads a source map by node's own reader, and by the package `source-map` where that is
// installed. For each line `L:C` of standard input, places that count from 1, it prints what each of them tells of that
// place: `SOURCE L:C`, or `none`, with a space between the two answers.
'use strict';

const fs = require('fs');
const { SourceMap } = require('module');

const text = fs.readFileSync(process.argv[2], 'utf8');
const map = new SourceMap(JSON.parse(text));
const places = fs.readFileSync(0, 'utf8').split('\n').filter(line => line).map(line => line.split(':').map(Number));

const byNode = (line, column) => {
  const found = map.findEntry(line - 1, column - 1);
  if (found.originalSource === undefined) return 'none';
  return `${found.originalSource} ${found.originalLine + 1}:${found.originalColumn + 1}`;
};

const consumer = async () => {
  let library;
  try {
    library = require('source-map');
  } catch (e) {
    return undefined;
  }
  return await new library.SourceMapConsumer(JSON.parse(text));
};

consumer().then(held => {
  for (const [line, column] of places) {
    let other = '';
    if (held) {
      const found = held.originalPositionFor({ line, column: column - 1 });
      other = found.source === null ? ' none' : ` ${found.source} ${found.line}:${found.column + 1}`;
    }
    console.log(byNode(line, column) + other);
  }
});
