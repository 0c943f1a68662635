'use strict';
// The record of one rewritten file: its lines as they come, and how many operations were left out and why.

const { equalities } = require('./operators.js');

const CHUNK = 65536; // UTF-16 units that are kept before they are written

module.exports = function makeRecorder(kept, host, facts, number) {
  const leftOut = kept.newMap();
  let lines = '';
  let told = 0;
  let full = false;

  // The rule `typeof-text` looks at three neighbours: a `typeof`, a text and an equality. `chain` says how many of them
  // end the record, and `torn` that an operation between them was left out: then the equality is left out, too.
  let chain = 0;
  let torn = false;

  function flush() {
    if (lines === '') return;
    try {
      full = !host.write(number, lines);
    } catch (e) {
      return; // no stack left: later
    }
    lines = '';
  }

  function leave(id, kind, reason) {
    const key = id + ' ' + kind + ' ' + reason;
    leftOut.set(key, (leftOut.get(key) || 0) + 1);
    torn = true;
    return false;
  }

  // Writes a line, or leaves the operation out where one of its facts is null. Says whether it wrote it.
  function row(id, kind, ...all) {
    if (full) return leave(id, kind, 'record full');
    let line = id + ' ' + kind;
    for (let i = 0; i < all.length; i++) {
      if (all[i] === null) return leave(id, kind, facts.refusal.reason);
      line += ' ' + all[i];
    }
    lines += line + '\n';
    told++;
    chain = 0;
    if (lines.length >= CHUNK) flush();
    return true;
  }

  // The costly facts, where the record still takes a line.
  function value(v) {
    return full ? facts.outside('record full') : facts.value(v);
  }
  function name(n) {
    return full ? facts.outside('record full') : facts.name(n);
  }
  function found(base, n) {
    return full ? facts.outside('record full') : facts.found(base, n);
  }

  return {
    row,
    leave,
    flush,
    value,
    name,
    found,

    // A line of a `typeof` was written, or left out.
    afterTypeof(wasTold) {
      if (wasTold) {
        chain = 1;
        torn = false;
      }
    },

    literal(id, v) {
      const follows = chain === 1 && typeof v === 'string';
      // To the rule these are texts that `typeof` never evaluates to; on this engine it does.
      if (follows && (v === 'symbol' || v === 'bigint')) leave(id, 'Literal', 'later typeof');
      else if (row(id, 'Literal', value(v)) && follows) chain = 2;
    },
    binary(id, op, a, b, result) {
      if (equalities[op] && chain === 2 && torn) leave(id, 'Binary', 'neighbour');
      else row(id, 'Binary', '"' + op + '"', value(a), value(b), value(result));
    },

    counts() {
      let text = '';
      leftOut.forEach((count, key) => {
        text += key + ' ' + count + '\n';
      });
      return { told, left: text };
    }
  };
};
