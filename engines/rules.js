'use strict';
// The names of the rules, each at its number less 1.

const RULES = ['nan-made', 'undefined-joined', 'object-joined', 'undefined-key', 'put-on-primitive', 'wrapped-condition',
  'loose-equal', 'odd-compare', 'typeof-text', 'bits-of-nothing', 'shadow-write', 'mixed-new', 'object-prototype-write',
  'odd-prototype', 'late-prototype', 'for-in-array', 'extra-arguments', 'wrapper-made', 'no-radix', 'global-this'];

module.exports = { RULES };
