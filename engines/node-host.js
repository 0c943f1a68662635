'use strict';
// What the hooks ask of their host, for node.

const { types } = require('util');

const { isProxy, isNativeError, isArgumentsObject, isBooleanObject, isNumberObject, isStringObject } = types;

// `write(number, lines)` takes the lines of a file's record. Options: `longest` text in UTF-16 units, `builtins` as pairs
// of a function and its path, and `math`, the object Math of the realm that is observed.
module.exports = function nodeHost(write, options) {
  const math = options.math || Math;
  return {
    write,
    longest: options.longest,
    builtins: options.builtins,
    isProxy,
    classOf(object) { // which is neither a function nor an array
      if (isNativeError(object)) return 'Error';
      if (isArgumentsObject(object)) return 'Arguments';
      if (isBooleanObject(object)) return 'Boolean';
      if (isNumberObject(object)) return 'Number';
      if (isStringObject(object)) return 'String';
      return object === math ? 'Math' : 'Object';
    }
  };
};
