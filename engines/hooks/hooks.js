'use strict';
// The hooks `J$` of rewritten scripts, for an engine such as node or a browser.
//
//   const run = jlintHooks(host);      once for a realm, before any other script
//   const file = run.file(table);      once for each rewritten script; weave.js makes the table
//   file.J$                            what the script calls
//   file.counts(), run.flush()         how much was recorded and left out; hand the last lines to the host
//
// A host has `write(number, lines)`, which says whether the record of a file takes more, and may have `longest` (of the
// texts that are recorded, in UTF-16 units), `builtins` (pairs of a function and its path), `isProxy` and `classOf`.

const keepBuiltins = require('./kept.js');
const makeObjects = require('./objects.js');
const makeFacts = require('./facts.js');
const makeCallees = require('./callees.js');
const makeProperties = require('./properties.js');
const makeRecorder = require('./recorder.js');
const makeCalls = require('./calls.js');
const makeHooks = require('./letters.js');

module.exports = function jlintHooks(host) {
  const kept = keepBuiltins();
  const files = kept.newMap();
  const objects = makeObjects(kept, host);
  const facts = makeFacts(kept, host, objects);
  const callees = makeCallees(kept, host, objects, files);
  const properties = makeProperties(kept);
  let functionCount = 0;

  // Numbers of functions are unique in the run, since `mixed-new` compares them across files.
  function functionsOf(table) {
    const functions = kept.newMap();
    for (let i = 0; i < table.functions.length; i++) {
      const { id, name, params, mentions } = table.functions[i];
      const callee = 's ' + functionCount + ' ' + params + ' ' + facts.flag(mentions);
      functions.set(id, { number: functionCount, name, callee });
      functionCount++;
    }
    return functions;
  }
  // For each id 1 where it is one of strict code.
  function strictIds(table) {
    const strict = new kept.Uint8Array(table.rows + 3);
    for (let i = 0; i < table.strict.length; i++) {
      const range = table.strict[i];
      for (let id = range[0]; id <= range[1]; id++) strict[id] = 1;
    }
    return strict;
  }

  return {
    file(table) {
      const functions = functionsOf(table);
      const recorder = makeRecorder(kept, host, facts, table.number);
      const calls = makeCalls(kept, facts, objects, callees, recorder);
      const J$ = makeHooks(kept, facts, objects, recorder, calls, properties, { functions, strict: strictIds(table) });
      const made = {
        J$,
        flush: recorder.flush,
        counts: recorder.counts,
        callee(id) {
          const f = functions.get(id);
          return f ? f.callee : null;
        }
      };
      files.set(table.number, made);
      return made;
    },
    flush() {
      files.forEach(file => file.flush());
    }
  };
};
