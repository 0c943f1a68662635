'use strict';
// The hooks `J$.S`, `J$.X`, .. of one rewritten file. Each does what the program's own operation does on this engine,
// once, and records it with its facts.

const { binary, unary } = require('./operators.js');

module.exports = function makeHooks(kept, facts, objects, recorder, calls, properties, table) {
  const { is, isArray, defineProperty } = kept;
  const { lacksProperties, nameFor } = properties;
  const { row, leave } = recorder;
  const { functions, strict } = table;

  function doBinary(id, op, a, b) {
    const result = binary[op](a, b);
    recorder.binary(id, op, a, b, result);
    return result;
  }

  // `x++` evaluates to the old value, which the new value less 1 is not where numbers have fractions.
  let lastOld;
  let lastNew;
  function update(id, op, a) {
    let value = a;
    lastOld = op === '++' ? value++ : value--;
    lastNew = value;
    row(id, 'Unary', '"' + op + '"', recorder.value(a), recorder.value(value));
    return value;
  }

  function get(id, base, name) {
    if (lacksProperties(base)) return base[name]; // the engine throws its own error
    const where = recorder.found(base, name);
    const { reason } = facts.refusal;
    const value = base[name];
    if (where === null) leave(id, 'GetField', reason);
    else row(id, 'GetField', recorder.value(base), recorder.name(name), recorder.value(value), where);
    return value;
  }
  function put(id, base, name, value, site) {
    row(id, 'PutField', recorder.value(base), recorder.name(name), recorder.value(value), recorder.found(base, name));
    properties.put(strict[site] === 1, base, name, value);
  }

  function functionLiteral(id, value) {
    const f = functions.get(id + 1);
    objects.meet(value).callee = f.callee;
    if (f.name !== null) defineProperty(value, 'name', { __proto__: null, value: f.name, configurable: true });
    row(id, 'FunctionLiteral', facts.number(value), f.number);
  }

  return {
    __proto__: null,
    // The script and its functions.
    S(id) { row(id, 'ScriptEnter'); },
    X(id) { row(id, 'ScriptExit'); },
    E(id, file, self, count, target) {
      return calls.enter(id, functions.get(id).number, self, count, target !== undefined);
    },
    L(id, call) { calls.leave(call); },

    // Literals.
    T(id, value) {
      if (typeof value === 'function') functionLiteral(id, value);
      else if (typeof value !== 'object' || value === null) recorder.literal(id, value);
      else row(id, isArray(value) ? 'ArrayLiteral' : 'ObjectLiteral', facts.number(value));
      return value;
    },
    regexp(id, value) {
      leave(id, 'Literal', 'regular expression');
      return value;
    },

    // Names, conditions and completions.
    R(id, name, value) { row(id, 'Read', recorder.name(name), recorder.value(value)); return value; },
    W(id, name, value) { row(id, 'Write', recorder.name(name), recorder.value(value)); return value; },
    Y(id, name, type) {
      recorder.afterTypeof(row(id, 'TypeofName', recorder.name(name), facts.quote(type)));
      return type;
    },
    H(id, name, value) { row(id, 'Catch', recorder.name(name), recorder.value(value)); return value; },
    O(id, value) { row(id, 'ForIn', recorder.value(value)); return value; },
    V(id, value) { row(id, 'Return', recorder.value(value)); return value; },
    K(id, value) { row(id, 'Throw', recorder.value(value)); return value; },
    C(id, value) {
      const tested = recorder.value(value);
      if (tested !== null) row(id, 'Conditional', tested);
      else leave(id, 'Conditional ' + facts.flag(value), facts.refusal.reason);
      return value;
    },

    // Operators.
    B: doBinary,
    U(id, op, a) {
      if (op === '++' || op === '--') return update(id, op, a);
      const result = unary[op](a);
      const told = row(id, 'Unary', '"' + op + '"', recorder.value(a), recorder.value(result));
      if (op === 'typeof') recorder.afterTypeof(told);
      return result;
    },
    old(value, by) { return is(value, lastNew) ? lastOld : value - by; },

    // Members.
    G(id, base, key) { return get(id, base, nameFor(base, key)); },
    Z(id, base, key) {
      const name = nameFor(base, key);
      const removed = properties.remove(strict[id] === 1, base, name);
      row(id, 'DeleteField', recorder.value(base), recorder.name(name), facts.flag(removed));
      return removed;
    },
    P(id, base, key) {
      return value => {
        if (lacksProperties(base)) base[key] = value; // the engine throws its own error
        put(id, base, nameFor(base, key), value, id);
        return value;
      };
    },
    A(id, op, base, key) {
      const name = nameFor(base, key);
      const old = get(id, base, name);
      return right => {
        const value = doBinary(id + 1, op, old, right);
        put(id + 2, base, name, value, id);
        return value;
      };
    },
    I(id, op, base, key) {
      const name = nameFor(base, key);
      const value = update(id + 1, op, get(id, base, name));
      const old = lastOld;
      put(id + 2, base, name, value, id);
      lastOld = old; // a setter may have updated something, too
      lastNew = value;
      return value;
    },

    // Calls.
    F(id, f) { return (...args) => calls.invoke(id, f, undefined, args, 'callee'); },
    M(id, base, key) {
      const name = nameFor(base, key);
      const f = get(id, base, name);
      return (...args) => calls.invoke(id + 1, f, base, args, typeof name === 'symbol' ? 'member' : name);
    },
    N(id, f) { return (...args) => calls.construct(id, f, args); }
  };
};
