// node plain_hooks.js SCRIPT: runs a script or its woven text with hooks of plain JavaScript beside it, and prints as
// JSON the lines that it printed and how it ended. A hook does what the operation did that it stands for, and tells
// nobody. It converts a key where node does: at the put, after the value, where 11.2.1 has it before.
'use strict';

const fs = require('fs');
const vm = require('vm');

// kept from the script, which may change the builtins
const { apply, construct, defineProperty, deleteProperty, set } = Reflect;
const { parse, stringify } = JSON;
const { writeSync, readFileSync } = fs;
const { captureStackTrace } = Error;
const Failure = TypeError;
const Base = Object;
const text = String;

const binary = {
  '*': (a, b) => a * b, '/': (a, b) => a / b, '%': (a, b) => a % b, '+': (a, b) => a + b, '-': (a, b) => a - b,
  '<<': (a, b) => a << b, '>>': (a, b) => a >> b, '>>>': (a, b) => a >>> b,
  '<': (a, b) => a < b, '>': (a, b) => a > b, '<=': (a, b) => a <= b, '>=': (a, b) => a >= b,
  'instanceof': (a, b) => a instanceof b, 'in': (a, b) => a in b,
  '==': (a, b) => a == b, '!=': (a, b) => a != b, '===': (a, b) => a === b, '!==': (a, b) => a !== b,
  '&': (a, b) => a & b, '^': (a, b) => a ^ b, '|': (a, b) => a | b,
};
const unary = {
  '-': v => -v, '+': v => +v, '!': v => !v, '~': v => ~v, 'typeof': v => typeof v, 'void': v => void v,
  '++': v => +v + 1, '--': v => +v - 1,
};

const callable = f => {
  if (typeof f !== 'function') throw new Failure('not callable');
};
const constructs = f => {
  try {
    construct(Object, [], f);
    return true;
  } catch (e) {
    return false;
  }
};
const same = (id, v) => v;
const ofName = (id, name, v) => v;
const nothing = () => undefined;

// Whether the code that called a hook is strict. Of a frame of strict code V8 gives neither the function nor `this`; of
// other code it gives both, but for that outside of functions, which has `this` alone.
const isStrictAbove = hook => {
  const holder = {};
  captureStackTrace(holder, hook);
  const frame = holder.stack[0];
  return frame.getFunction() === undefined && frame.getThis() === undefined;
};

// A put and a delete that fail throw where the code that called the hook is strict (8.7.2, 11.4.1), and then the engine
// throws its own error: to fail once more changes nothing.
const put = (hook, o, k, v) => {
  if (o === undefined || o === null) o[k] = v;
  const name = text(k);
  if (!set(Base(o), name, v, o) && isStrictAbove(hook)) o[name] = v;
  return v;
};
const remove = (hook, o, k) => {
  if (o === undefined || o === null) delete o[k];
  const name = text(k);
  const removed = deleteProperty(Base(o), name);
  if (!removed && isStrictAbove(hook)) delete o[name];
  return removed;
};

const hooks = {
  S: nothing, X: nothing, E: nothing, L: nothing,
  T: same, C: same, O: same, V: same, K: same,
  R: ofName, W: ofName, Y: ofName, H: ofName,
  B: (id, sign, a, b) => binary[sign](a, b),
  U: (id, sign, v) => unary[sign](v),
  G: (id, o, k) => o[k],
  Z: (id, o, k) => remove(hooks.Z, o, k),
  P: (id, o, k) => function hook(v) {
    return put(hook, o, k, v);
  },
  A: (id, sign, o, k) => {
    const held = o[k];
    return function hook(v) {
      return put(hook, o, k, binary[sign](held, v));
    };
  },
  I: (id, sign, o, k) => put(hooks.I, o, k, unary[sign](o[k])),
  F: (id, f) => function () {
    callable(f);
    return apply(f, undefined, arguments);
  },
  N: (id, f) => function () {
    if (typeof f !== 'function' || !constructs(f)) throw new Failure('not callable');
    return construct(f, arguments);
  },
  M: (id, o, k) => {
    const f = o[k];
    return function () {
      callable(f);
      return apply(f, o, arguments);
    };
  },
};

// The text of a function is left to the implementation by 15.3.4.2. A woven function shows its hooks in that of the
// engine, so both runs have the text of jlint: its name is that in its head, or of a builtin the last part of its path.
const source = Function.prototype.toString;
const { exec } = RegExp.prototype;
const HEAD = /^function(?:\s|\/\*[^]*?\*\/|\/\/.*)*([^\s/(]*)/;
const UNNAMED = 'function () { [native code] }';
const unnamed = f => {
  if (f === Function.prototype) return 'prototype';
  return f.name === '' ? 'thrower' : 'bound';
};
const { toString } = {
  toString() {
    const written = apply(source, this, []);
    const head = apply(exec, HEAD, [written]);
    const name = written === UNNAMED ? unnamed(this) : head ? parse('"' + head[1] + '"') : '';
    return 'function ' + name + '() { [code] }';
  },
};

const output = [];
const print = function print() {
  let line = '';
  for (let i = 0; i < arguments.length; i += 1) line += (i ? ' ' : '') + text(arguments[i]);
  defineProperty(output, output.length, { value: line, writable: true, enumerable: true, configurable: true });
};
const code = readFileSync(process.argv[2], 'utf8');
for (const [name, value] of [['J$', hooks], ['print', print]]) {
  defineProperty(globalThis, name, { value, writable: true, configurable: true, enumerable: false });
}
defineProperty(Function.prototype, 'toString', { value: toString });
defineProperty(Error, 'prepareStackTrace', { value: (error, frames) => frames });
console.log = print;
let end = 'normal';
try {
  vm.runInThisContext(code, { filename: 'script' });
} catch (e) {
  end = 'thrown ' + (e && e.name || typeof e);
}
writeSync(1, stringify({ output, end }));
