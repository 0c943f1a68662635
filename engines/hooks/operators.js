'use strict';
// The operators of expressions by their signs (clauses 11.4 to 11.11), as this engine evaluates them.

const binary = {
  __proto__: null,
  '*': (a, b) => a * b,
  '/': (a, b) => a / b,
  '%': (a, b) => a % b,
  '+': (a, b) => a + b,
  '-': (a, b) => a - b,
  '<<': (a, b) => a << b,
  '>>': (a, b) => a >> b,
  '>>>': (a, b) => a >>> b,
  '<': (a, b) => a < b,
  '>': (a, b) => a > b,
  '<=': (a, b) => a <= b,
  '>=': (a, b) => a >= b,
  instanceof: (a, b) => a instanceof b,
  in: (a, b) => a in b,
  '==': (a, b) => a == b,
  '!=': (a, b) => a != b,
  '===': (a, b) => a === b,
  '!==': (a, b) => a !== b,
  '&': (a, b) => a & b,
  '^': (a, b) => a ^ b,
  '|': (a, b) => a | b
};

const unary = {
  __proto__: null,
  '-': a => -a,
  '+': a => +a,
  '!': a => !a,
  '~': a => ~a,
  typeof: a => typeof a,
  void: () => undefined
};

const equalities = { __proto__: null, '==': true, '!=': true, '===': true, '!==': true };

module.exports = { binary, unary, equalities };
