'use strict';
// The facts of an operation as a record writes them: a text each, or null where the record has no form for one.

const LONGEST_TEXT = 1048576; // UTF-16 units of a string value
const LARGEST_NUMBER = 9007199254740991;
const ESCAPED_BEYOND_JSON = /[\x7f-\x9f\u2028\u2029]/;
const HEX = '0123456789abcdef';

module.exports = function makeFacts(kept, host, objects) {
  const { apply, exec, charCodeAt, toJson, hasOwnProperty, descriptorOf, getPrototypeOf, toObject } = kept;
  const { meet } = objects;
  const longest = host.longest === undefined ? LONGEST_TEXT : host.longest;

  // Why the last fact is null.
  const refusal = { reason: '' };
  function outside(reason) {
    refusal.reason = reason;
    return null;
  }

  function escaped(unit) {
    return '\\u' + HEX[unit >> 12] + HEX[(unit >> 8) & 15] + HEX[(unit >> 4) & 15] + HEX[unit & 15];
  }
  function quote(text) {
    const json = toJson(text);
    if (apply(exec, ESCAPED_BEYOND_JSON, [json]) === null) return json;
    let out = '';
    for (let i = 0; i < json.length; i++) {
      const unit = apply(charCodeAt, json, [i]);
      out += (unit >= 127 && unit <= 159) || unit === 0x2028 || unit === 0x2029 ? escaped(unit) : json[i];
    }
    return out;
  }

  function textFact(text) {
    return text.length <= longest ? quote(text) : outside('long text');
  }
  function numberFact(n) {
    if (n === (n | 0) && n !== 0) return 'n' + n; // nearly all
    if (n !== n) return 'nNaN';
    if (n === Infinity || n === -Infinity) return outside('infinity');
    if (n % 1 !== 0) return outside('fraction');
    if (n > LARGEST_NUMBER || n < -LARGEST_NUMBER) return outside('large number');
    return n === 0 && 1 / n < 0 ? outside('negative zero') : 'n' + n;
  }
  function objectFact(object) {
    const { seen } = meet(object);
    return seen === null ? outside('proxy') : seen;
  }

  return {
    refusal,
    outside,
    quote,
    flag: truth => (truth ? 't' : 'f'),
    name: name => (typeof name === 'string' ? textFact(name) : outside('symbol')),
    number(object) {
      const known = meet(object);
      return known.seen === null ? outside('proxy') : known.number;
    },

    value(value) {
      switch (typeof value) {
        case 'undefined': return value === undefined ? 'u' : outside('document.all');
        case 'boolean': return value ? 't' : 'f';
        case 'number': return numberFact(value);
        case 'string': return textFact(value);
        case 'object': return value === null ? 'z' : objectFact(value);
        case 'function': return objectFact(value);
        default: return outside(typeof value);
      }
    },

    // Where a look-up of the name finds a property. No getter is called; a proxy in the chain, or a host that
    // forbids to look, leaves the operation out.
    found(base, name) {
      let object = base !== null && (typeof base === 'object' || typeof base === 'function') ? base : toObject(base);
      let where = 'own-';
      try {
        for (;;) {
          if (host.isProxy && host.isProxy(object)) return outside('proxy');
          const property = apply(hasOwnProperty, object, [name]) ? descriptorOf(object, name) : undefined;
          if (property !== undefined) return where + (apply(hasOwnProperty, property, ['value']) ? 'plain' : 'accessor');
          object = getPrototypeOf(object);
          if (object === null) return 'absent';
          where = 'chain-';
        }
      } catch (e) {
        return outside('closed object');
      }
    }
  };
};
