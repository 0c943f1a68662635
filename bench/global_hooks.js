// node --require ./bench/global_hooks.js WOVEN: gives a rewritten script hooks of plain JavaScript as its global `J$`, and
// `print`. A hook does what the operation did that it stands for, and tells nobody. Where a property can't be written or
// deleted, only strict code would throw; these hooks are strict, so they throw in other code too.
'use strict';

const binary = {
  '*': (a, b) => a * b, '/': (a, b) => a / b, '%': (a, b) => a % b, '+': (a, b) => a + b, '-': (a, b) => a - b,
  '<<': (a, b) => a << b, '>>': (a, b) => a >> b, '>>>': (a, b) => a >>> b,
  '<': (a, b) => a < b, '>': (a, b) => a > b, '<=': (a, b) => a <= b, '>=': (a, b) => a >= b,
  'instanceof': (a, b) => a instanceof b, 'in': (a, b) => a in b,
  '==': (a, b) => a == b, '!=': (a, b) => a != b, '===': (a, b) => a === b, '!==': (a, b) => a !== b,
  '&': (a, b) => a & b, '^': (a, b) => a ^ b, '|': (a, b) => a | b,
};
const unary = {
  '-': v => -v, '+': v => +v, '!': v => !v, '~': v => ~v, 'typeof': v => typeof v, 'void': v => void v,
  '++': v => +v + 1, '--': v => +v - 1,
};
const same = (id, v) => v;
const ofName = (id, name, v) => v;
const nothing = () => undefined;

globalThis.J$ = {
  S: nothing, X: nothing, E: nothing, L: nothing,
  T: same, C: same, O: same, V: same, K: same,
  R: ofName, W: ofName, Y: ofName, H: ofName,
  B: (id, sign, a, b) => binary[sign](a, b),
  U: (id, sign, v) => unary[sign](v),
  G: (id, o, k) => o[k],
  Z: (id, o, k) => delete o[k],
  P: (id, o, k) => v => { o[k] = v; return v; },
  A: (id, sign, o, k) => {
    const held = o[k];
    return v => { const made = binary[sign](held, v); o[k] = made; return made; };
  },
  I: (id, sign, o, k) => { const made = unary[sign](o[k]); o[k] = made; return made; },
  F: (id, f) => (...args) => Reflect.apply(f, undefined, args),
  N: (id, f) => (...args) => Reflect.construct(f, args),
  M: (id, o, k) => (...args) => Reflect.apply(o[k], o, args),
};
globalThis.print = (...args) => console.log(args.map(String).join(' '));
