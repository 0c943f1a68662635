'use strict';
// What a callee is: a function of a rewritten file, a builtin of the record's table, or any other.

const TABLE = [
  ['', globalObject => globalObject,
    'Object Function Array String Number Boolean Error EvalError RangeError ReferenceError SyntaxError TypeError ' +
    'URIError parseInt isNaN isFinite'],
  ['Object.', () => Object,
    'getPrototypeOf getOwnPropertyDescriptor getOwnPropertyNames create defineProperty defineProperties seal freeze ' +
    'preventExtensions isSealed isFrozen isExtensible keys'],
  ['Object.prototype.', () => Object.prototype,
    'toString toLocaleString valueOf hasOwnProperty isPrototypeOf propertyIsEnumerable'],
  ['Function.', () => Function, 'prototype'],
  ['Function.prototype.', () => Function.prototype, 'toString apply call bind'],
  ['Array.', () => Array, 'isArray'],
  ['Array.prototype.', () => Array.prototype,
    'toString toLocaleString concat join pop push reverse shift slice sort splice unshift indexOf lastIndexOf every ' +
    'some forEach map filter reduce reduceRight'],
  ['String.', () => String, 'fromCharCode'],
  ['String.prototype.', () => String.prototype,
    'toString valueOf charAt charCodeAt concat indexOf lastIndexOf slice split substring toLowerCase toUpperCase trim ' +
    'toLocaleLowerCase toLocaleUpperCase localeCompare replace match search'],
  ['Number.prototype.', () => Number.prototype,
    'toString valueOf toFixed toExponential toPrecision toLocaleString'],
  ['Boolean.prototype.', () => Boolean.prototype, 'toString valueOf'],
  ['Error.prototype.', () => Error.prototype, 'toString'],
  ['Math.', () => Math, 'abs ceil floor max min pow round'],
  ['console.', globalObject => globalObject.console || {}, 'log']
];

// The record's one name for a function that is neither rewritten nor in its table of builtins.
const OTHER = 'b "bound"';

// `files` has the rewritten files by their numbers.
module.exports = function makeCallees(kept, host, objects, files) {
  const { apply, construct, exec, functionToString, Proxy } = kept;
  const { meet } = objects;

  const builtins = kept.newMap();
  function addBuiltin(f, path) {
    if (typeof f === 'function' && !builtins.has(f)) builtins.set(f, 'b "' + path + '"');
  }
  if (host.builtins) host.builtins.forEach(([f, path]) => addBuiltin(f, path));
  for (const [prefix, owner, names] of TABLE) {
    names.split(' ').forEach(name => addBuiltin(owner(kept.globalObject)[name], prefix + name));
  }

  // A rewritten function tells its file and its own id, which is the least of the ids in its text.
  function rewrittenCallee(f) {
    const enter = /\nlet J\$call = J\$[_0-9]*\.E\((\d+), (\d+),/g;
    let text;
    try {
      text = apply(functionToString, f, []);
    } catch (e) {
      return null;
    }
    let file = -1;
    let least = Infinity;
    for (let m; (m = apply(exec, enter, [text])) !== null; ) {
      if (+m[1] < least) {
        least = +m[1];
        file = +m[2];
      }
    }
    return files.has(file) ? files.get(file).callee(least) : null;
  }

  const notRun = { __proto__: null, construct: () => notRun };

  return {
    calleeFact(f) {
      const known = meet(f);
      if (known.callee === null) known.callee = builtins.get(f) || rewrittenCallee(f) || OTHER;
      return known.callee;
    },

    // Whether `new f` would construct; f itself is not run.
    constructs(f) {
      if (typeof f !== 'function') return false;
      const known = meet(f);
      if (known.constructs === null) {
        try {
          construct(new Proxy(f, notRun), []);
          known.constructs = true;
        } catch (e) {
          known.constructs = false;
        }
      }
      return known.constructs;
    }
  };
};
