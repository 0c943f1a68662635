// Puts and deletes of properties, in the mode of the code that does them. This file is not strict: a put that fails
// in sloppy code has to fail silently (8.7.2).

module.exports = function makeProperties(kept) {
  var ownKeys = kept.ownKeys;

  function putSloppy(base, name, value) {
    base[name] = value;
  }
  function putStrict(base, name, value) {
    'use strict';
    base[name] = value;
  }
  function removeSloppy(base, name) {
    return delete base[name];
  }
  function removeStrict(base, name) {
    'use strict';
    return delete base[name];
  }

  function lacksProperties(base) {
    return base === undefined || base === null;
  }

  // ToPropertyKey: an object's conversion is called once, and a symbol stays one.
  function keyOf(key) {
    if (typeof key === 'string' || typeof key === 'symbol') return key;
    if (typeof key === 'object' || typeof key === 'function') {
      var holder = { __proto__: null };
      holder[key] = 0;
      return ownKeys(holder)[0];
    }
    return '' + key;
  }

  return {
    lacksProperties: lacksProperties,
    // Where the base has no properties, the engine throws at the access; the key is then not converted.
    nameFor: function (base, key) {
      return lacksProperties(base) ? key : keyOf(key);
    },
    put: function (strict, base, name, value) {
      if (strict) putStrict(base, name, value);
      else putSloppy(base, name, value);
    },
    remove: function (strict, base, name) {
      return strict ? removeStrict(base, name) : removeSloppy(base, name);
    }
  };
};
