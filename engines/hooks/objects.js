'use strict';
// Objects as a record names them: a number for the whole run, and a class of the record.

// Number 0 is Object.prototype and 1 the global object, as in jlint's own runs.
module.exports = function makeObjects(kept, host) {
  const { apply, slice, isArray, objectToString, globalObject } = kept;
  const known = kept.newWeakMap();
  let count = 0;

  const valueOfs = {
    __proto__: null,
    Boolean: kept.booleanValueOf,
    Number: kept.numberValueOf,
    String: kept.stringValueOf
  };

  // The class by the tag of Object.prototype.toString, which a program can forge for all but these.
  function classByTag(object) {
    const text = apply(objectToString, object, []);
    const tag = apply(slice, text, [8, text.length - 1]);
    if (tag === 'Error' || tag === 'Arguments' || tag === 'Math') return tag;
    if (valueOfs[tag] === undefined) return 'Object';
    apply(valueOfs[tag], object, []);
    return tag;
  }

  // A class of the record, or Proxy. An object of another class (Date, RegExp, Map, a host's) is told as Object.
  function classOf(object) {
    try {
      if (host.isProxy && host.isProxy(object)) return 'Proxy';
      if (typeof object === 'function') return 'Function';
      if (isArray(object)) return 'Array';
      return host.classOf ? host.classOf(object) : classByTag(object);
    } catch (e) {
      return 'Proxy'; // only a proxy, or what lies like one, can throw here
    }
  }

  // What is known of an object: its number, its text in a record (null for a proxy), and as what it is called.
  function meet(object) {
    let entry = known.get(object);
    if (entry !== undefined) return entry;
    const kind = object === globalObject ? 'Object' : classOf(object);
    const seen = kind === 'Proxy' ? null : 'o' + count + ':' + kind;
    entry = { number: '' + count, seen, callee: null, constructs: null };
    if (seen !== null) count++;
    known.set(object, entry);
    return entry;
  }

  meet(Object.prototype);
  meet(globalObject);
  return { meet };
};
