#!/usr/bin/env python3
"""Writes scripts by chance, within the language that jlint takes, for tools/engines.py.

usage: tools/random_scripts.py FOLDER --seed N --count M [--without NAMES]

Script K of a run is made from the seed N + K alone, so that one script can be made again. It has all forms of
statements and expressions and all builtins that jlint has, getters and setters, deletes, throws, `finally` and labels;
each loop and each recursion ends. It prints values by `show`, the same function in each script.

NAMES are names of forms that are left out or put otherwise, with commas between them, where an engine is known to do
otherwise: see tools/standard/engines.txt. For mujs they are, with `accessor` for half of the seeds and `delete` for the
other half, constructor,deep,delete-value,finally,holes,in-getter,mapped,minus,no-base,no-primitive,nul,order,this and
uncaught.
"""
import argparse
import os
import random

# What each script begins with. Texts of functions and messages of errors differ by engine, so that none is printed.
HEAD = '''\
Function.prototype.toString = function () { return "function"; };
var calls = 0, global = this;
function show(v, depth) {
  var names, k, parts = [], part;
  depth = depth || 0;
  if (v === null) { return "null"; }
  if (typeof v === "string") { return "'" + v + "'"; }
  if (typeof v === "function") { return "function" + v.length; }
  if (v === global) { return "global"; }
  if (typeof v !== "object") { return typeof v + ":" + v; }
  if (v instanceof Error) { return v.name; }
  if (depth > 2) { return ".."; }
  names = Object.getOwnPropertyNames(v).sort();
  for (k = 0; k < names.length; k = k + 1) {
    try { part = show(v[names[k]], depth + 1); } catch (e) { part = "throws " + show(e, 3); }
    parts.push(names[k] + "=" + part);
  }
  return Object.prototype.toString.call(v) + "{" + parts.join(";") + "}";
}
'''
NUMBERS = ['0', '1', '2', '3', '5', '7', '10', '-1', '-2', '31', '32', '255', '0x10', '65536', '2147483647',
           '2147483648', '-2147483648', '4294967295', '1e3', '2.50e1', '9007199254740991', 'NaN']
TEXTS = ['""', '"x"', '"ab"', '"b"', '"12"', '" 7 "', '"0x1f"', '"length"', '"1"', '"NaN"', '"true"', '"-3"', '"1e2"',
         '"a,b"', '"\\u0041"', '"\\x7a"', "'q'", '"Zz"', '"\\t1\\n"', '"constructor"', '"p"']
OPERATORS = ['+', '+', '+', '-', '*', '%', '&', '|', '^', '<<', '>>', '>>>', '<', '>', '<=', '>=', '==', '!=', '===',
             '!==', ',', '&&', '||']
CHANGES = ['=', '=', '=', '+=', '-=', '*=', '%=', '&=', '|=', '^=', '<<=', '>>=', '>>>=']
# Calls of methods: the receiver is of this kind, and `@` stands for an expression.
METHODS = {
    'text': ['charAt(@)', 'charCodeAt(@)', 'indexOf(@)', 'indexOf(@, @)', 'lastIndexOf(@)', 'lastIndexOf(@, @)',
             'slice(@)', 'slice(@, @)', 'substring(@)', 'substring(@, @)', 'split(@)', 'split(@, 3)', 'concat(@)',
             'concat(@, @)', 'trim()', 'toLowerCase()', 'toUpperCase()', 'toString()', 'valueOf()'],
    'array': ['join(@)', 'join()', 'slice(@)', 'slice(@, @)', 'concat(@)', 'concat(@, @)', 'indexOf(@)',
              'indexOf(@, @)', 'lastIndexOf(@)', 'lastIndexOf(@, @)', 'splice(@, @)', 'splice(@, @, @, @)', 'push(@)',
              'push(@, @)', 'unshift(@)', 'unshift(@, @)', 'reverse()', 'pop()', 'shift()', 'toString()',
              'map(function (x, i) { return [x, i, @]; })', 'filter(function (x) { return x != @; })',
              'reduce(function (x, y) { return [x, y]; })', 'reduce(function (x, y, i) { return i; }, @)',
              'reduceRight(function (x, y) { return [x, y]; })', 'every(function (x) { return x > @; })',
              'some(function (x) { return x == @; })', 'forEach(function (x, i, a) { print(show(x), i, a.length); })',
              'map(String).sort()', 'map(function () { return this; }, @).length'],
    'object': ['hasOwnProperty(@)', 'propertyIsEnumerable(@)', 'toString()', 'valueOf()', 'isPrototypeOf(@)'],
    'function': ['call(@, @)', 'apply(@, [@, @])', 'bind(@, @)(@)', 'call()', 'bind(@).length'],
}
GLOBALS = ['parseInt(@)', 'parseInt(@, 16)', 'parseInt(@, 2)', 'parseInt(@, 36)', 'isNaN(@)', 'isFinite(@)',
           'String(@)', 'Number(@)', 'Boolean(@)', 'Object(@)', 'Array(3)', 'Array(@, @)', 'new Array(2)',
           'new String(@)', 'new Number(@)', 'new Boolean(@)', 'new Object(@)', 'new Error(@)', 'new TypeError("m")',
           'RangeError(@)', 'Array.isArray(@)', 'Math.abs(@)', 'Math.max(@, @)', 'Math.min(@, @, 4)', 'Math.floor(@)',
           'Math.ceil(@)', 'Math.round(@)', 'Math.pow(3, 5)', 'Math.pow(@, 1)', 'String.fromCharCode(65, 98, @ & 127)',
           'Object.keys(%).sort()', 'Object.getOwnPropertyNames(%).sort()', 'Object.getPrototypeOf(%) === null',
           'Object.create(%)', 'Object.create(null)', 'Object.create(%, { p: { value: @, enumerable: true } })',
           'Object.freeze(%)', 'Object.seal(%)', 'Object.preventExtensions(%)', 'Object.isFrozen(%)',
           'Object.isSealed(%)', 'Object.isExtensible(%)', 'Object.getOwnPropertyDescriptor(%, @)',
           'Object.defineProperty(%, "p", { value: @, writable: #, enumerable: #, configurable: # })',
           'Object.defineProperty(%, "r", { get: function () { return @; }, configurable: # })',
           'Object.defineProperty(%, "q", { set: function (v) { print("set", show(v)); }, enumerable: # })',
           'Object.defineProperties(%, { q: { value: @ }, p: { enumerable: # } })',
           'Object.prototype.toString.call(@)', 'Error.prototype.toString.call(%)', '(@).toString()',
           'Array.prototype.join.call(%, "-")', 'Array.prototype.push.call({ length: 2 }, @)',
           'Array.prototype.slice.call(%, @, 3)', 'Array.prototype.indexOf.call("a1b1", @)',
           'Number.prototype.toString.call(26, 16)', '(255).toString(2)', '(-1295).toString(36)']
# Calls that are left out with a form.
LEFT_OUT = {'holes': ['Array(3)', 'Array(@, @)', 'new Array(2)', 'Object.freeze(%)', 'Object.seal(%)',
                      'Object.preventExtensions(%)', 'Array.prototype.push.call({ length: 2 }, @)'],
            'accessor': [form for form in GLOBALS if '{ get:' in form or '{ set:' in form],
            'delete': ['Object.defineProperty(%, "p", { value: @, writable: #, enumerable: #, configurable: # })',
                       'Object.defineProperties(%, { q: { value: @ }, p: { enumerable: # } })', 'splice(@, @)',
                       'splice(@, @, @, @)', 'pop()', 'shift()'],
            'no-primitive': ['Object.create(null)', 'Object.create(%)',
                             'Object.create(%, { p: { value: @, enumerable: true } })']}


# Texts and other parts of forms that are put otherwise with a form left out.
OTHERWISE = {'deep': {'get: function () { return @; }': 'get: function () { return "r"; }'},
             'order': {'{ q: { value: @ }, p: { enumerable: # } }': '{ p: { enumerable: # }, q: { value: @ } }'},
             'nul': {'@ & 127': '@ & 127 | 64'},
             'minus': {'x != @': 'unsigned(x) != @', 'x > @': 'unsigned(x) > @', 'x == @': 'unsigned(x) == @'}}
# What a script begins with, too, where no text with a sign is made a number: such texts are given a letter before it.
UNSIGNED = '''\
function unsigned(v) {
  if (typeof v !== "string") { return v; }
  var sign = v.trim().charAt(0);
  return sign === "-" || sign === "+" ? "m" + v : v;
}
(function (list, text) {
  Array.prototype.toString = function () { return unsigned(list.call(this)); };
  String.prototype.valueOf = function () { return unsigned(text.call(this)); };
})(Array.prototype.toString, String.prototype.valueOf);
'''


class Writer:
    """Writes one script."""

    def __init__(self, seed, without=()):
        self.random = random.Random(seed)
        self.without = set(without)
        self.names = ['a', 'b', 'c', 'd', 'e']
        self.labels = 0
        self.counters = 0
        self.texts = [text for text in TEXTS if not ('constructor' in self.without and text == '"constructor"'
                                                     or 'minus' in self.without and text == '"-3"')]

    def pick(self, choices):
        return self.random.choice(choices)

    def often(self, percent):
        return self.random.random() * 100 < percent

    def fill(self, form, depth):
        """A form with an expression for each `@`, an object for each `%` and a truth value for each `#`."""
        for name in self.without:
            for one, other in OTHERWISE.get(name, {}).items():
                form = form.replace(one, other)
        parts = {'@': lambda: self.number(depth), '%': lambda: self.object(depth), '#': self.truth}
        return ''.join(parts[it]() if it in parts else it for it in form)

    def number(self, depth):
        """An expression that is made a number."""
        return self.unsigned(self.expression(depth))

    def unsigned(self, value):
        return 'unsigned(%s)' % value if 'minus' in self.without else value

    def change_of(self, target, operator, value):
        """An assignment, of which the old value is made a number too."""
        converts = 'minus' in self.without and operator not in ('=', '+=')
        first = '%s = unsigned(%s), ' % (target, target) if converts else ''
        return '%s%s %s %s' % (first, target, operator, self.unsigned(value))

    def truth(self):
        return self.pick(['true', 'false'])

    # Expressions

    def literal(self, depth):
        form = self.random.randrange(10)
        if form < 4:
            return self.pick(NUMBERS)
        if form < 7:
            return self.pick(self.texts)
        if form < 8:
            return self.pick(['true', 'false', 'null', 'undefined'])
        return self.array(depth - 1) if form < 9 else self.object_literal(depth - 1)

    def array(self, depth):
        full = 100 if 'holes' in self.without else 88
        items = [self.expression(depth) if self.often(full) else '' for _ in range(self.random.randint(0, 4))]
        return '[' + ', '.join(items) + (']' if not items or items[-1] else ', 1]')

    def object_literal(self, depth):
        names = self.random.sample(['p', 'q', 'r', 's', 'valueOf', 'toString', '"0"', '1'], self.random.randint(0, 3))
        return '({ ' + ', '.join(self.entry(name, depth) for name in names) + ' })'

    def entry(self, name, depth):
        if name in ('valueOf', 'toString'):
            this = [] if 'no-primitive' in self.without else ['this']
            return name + ': function () { print("%s"); return %s; }' % (name, self.pick(NUMBERS + self.texts + this))
        form = self.random.randrange(10)
        if form < 7:
            return name + ': ' + self.expression(depth)
        if 'accessor' in self.without:
            return name + ': ' + self.expression(depth)
        if form < 9:
            return 'get %s() { print("get"); return %s; }' % (name, self.expression(depth))
        return 'set %s(v) { print("set", show(v)); }' % name

    def object(self, depth):
        """An expression whose value is an object, so that later editions do not part from this one."""
        return self.pick(['o', 'o', 'l', 'Object(%s)' % self.expression(depth - 1), self.array(depth - 1),
                          self.object_literal(depth - 1)])

    def function(self, depth):
        words = self.pick(['x', 'x, y', ''])
        strict = self.pick(['"use strict"; ', '', ''])
        name = self.pick(['', ' own'])
        value = self.expression(depth - 1)
        return '(function%s(%s) { %s%s return %s; })' % (
            name, words, strict, self.statement(depth - 1, True), '[typeof own, %s]' % value if name else value)

    def target(self, depth):
        """What is assigned to; the base is an object and the key a primitive, since engines test them too late."""
        form = self.random.randrange(10)
        if form < 5:
            return self.pick(self.names)
        if form < 8:
            return self.pick(['o', 'l']) + '.' + self.pick(['p', 'q', 'r'])
        base = self.pick(['o', 'o' if 'holes' in self.without else 'l'])
        return base + '[' + self.pick(['"p"', '0', '1', '2', '"k" + ' + self.pick(self.names)]) + ']'

    def expression(self, depth):
        if depth <= 0:
            return self.literal(0) if self.often(50) else self.pick(self.names)
        forms = [self.literal] * 3 + [self.name] * 2 + [self.binary] * 5 + [self.unary] * 2 + [self.method] * 4
        forms += [self.library] * 3 + [self.conditional, self.update, self.change, self.change, self.call, self.made]
        forms += [self.removal, self.membership, self.member, self.member]
        return self.pick(forms)(depth)

    def name(self, _):
        return self.pick(self.names + ['o', 'l'])

    def binary(self, depth):
        return '(%s %s %s)' % (self.number(depth - 1), self.pick(OPERATORS), self.number(depth - 1))

    def unary(self, depth):
        if self.often(20):
            return 'typeof ' + self.pick(self.names + ['absent'])
        return self.pick(['-', '+', '!', '~', 'typeof ', 'void ']) + '(' + self.number(depth - 1) + ')'

    def conditional(self, depth):
        return '(%s ? %s : %s)' % tuple(self.expression(depth - 1) for _ in range(3))

    def update(self, depth):
        form, target = self.pick(['++%s', '--%s', '%s++', '%s--']), self.target(depth)
        first = '%s = unsigned(%s), ' % (target, target) if 'minus' in self.without else ''
        return '(' + first + form % target + ')'

    def change(self, depth):
        return '(' + self.change_of(self.target(depth), self.pick(CHANGES), self.expression(depth - 1)) + ')'

    def call(self, depth):
        words = ', '.join(self.expression(depth - 1) for _ in range(self.random.randint(0, 3)))
        return self.pick(['f', 'g', 'h', self.function(depth)]) + '(' + words + ')'

    def made(self, depth):
        return '(new ' + self.pick(['f', 'g', 'h']) + '(' + self.expression(depth - 1) + '))'

    def removal(self, depth):
        if self.often(20) and 'delete-value' not in self.without:
            return '(delete (0, ' + self.expression(depth - 1) + '))'
        if 'delete' in self.without:
            return self.name(depth)
        base = self.pick(['o'] if 'holes' in self.without else ['o', 'l', 'o', 'l', 'd'])
        return '(delete ' + base + self.pick(['.p', '.q', '.r', '[0]', '[1]']) + ')'

    def membership(self, depth):
        if self.often(50):
            key = self.pick(['"p"', '"length"', '0', '"q"', '1'])
            base = self.pick(['o', 'l', self.array(depth - 1)]) if 'in-getter' in self.without else self.object(depth)
            return '(' + key + ' in ' + base + ')'
        return '(%s instanceof %s)' % (self.expression(depth - 1), self.pick(['Object', 'Array', 'f', 'g', 'Error']))

    def member(self, depth):
        if self.often(50):
            return self.object(depth) + '.' + self.pick(['p', 'q', 'length', 'r'])
        base = self.object(depth) if 'no-base' in self.without else self.expression(depth - 1)
        return base + '[' + self.expression(depth - 1) + ']'

    def method(self, depth):
        kind = self.pick(['text', 'array', 'array', 'object', 'function'])
        base = {'text': 'String(%s)' % self.expression(depth - 1), 'array': self.pick(['l', self.array(depth - 1)]),
                'object': self.object(depth), 'function': self.pick(['f', 'g', 'h'])}[kind]
        return base + '.' + self.fill(self.pick(self.kept(METHODS[kind])), depth - 1)

    def kept(self, forms):
        left_out = {form for name in self.without for form in LEFT_OUT.get(name, ())}
        return [form for form in forms if form not in left_out]

    def library(self, depth):
        return self.fill(self.pick(self.kept(GLOBALS)), depth - 1)

    # Statements

    def statements(self, depth, inside):
        return ' '.join(self.statement(depth, inside) for _ in range(self.random.randint(1, 3)))

    def statement(self, depth, inside):
        """A statement; `inside` says whether it stands in a function, where it may return."""
        if depth <= 0:
            return 'print(show(%s));' % self.expression(2)
        forms = [self.printed] * 3 + [self.put] * 3 + [self.condition, self.counting, self.testing, self.visiting]
        forms += [self.attempt] * 3 + [self.choice, self.declared, self.labelled, self.plain, self.thrown]
        if inside and self.often(15):
            return 'if (%s) { return %s; }' % (self.expression(2), self.expression(2))
        return self.pick(forms)(depth, inside)

    def printed(self, _, inside):
        if inside and self.often(30):
            this = '' if 'this' in self.without else ', show(this)'
            return 'print(arguments.length, show(arguments[%s])%s);' % (self.pick('01'), this)
        return 'print(show(%s), show(%s));' % (self.expression(3), self.expression(1))

    def put(self, _, inside):
        if inside and self.often(15) and 'mapped' not in self.without:
            return 'arguments[0] = %s; print(show(x));' % self.expression(1)
        if self.often(8) and 'holes' not in self.without:
            return 'l.length = %s;' % self.pick(['0', '1', '3', '"2"', '-1', '{ valueOf: function () { return 2; } }'])
        return self.change_of(self.target(2), self.pick(CHANGES), self.expression(3)) + ';'

    def plain(self, _, __):
        return '(' + self.expression(3) + ');'

    def declared(self, _, __):
        return 'var %s = %s;' % (self.pick(self.names), self.expression(3))

    def thrown(self, _, __):
        return 'if (%s) { throw %s; }' % (self.expression(2), self.expression(2))

    def condition(self, depth, inside):
        other = ' else { %s }' % self.statements(depth - 1, inside) if self.often(50) else ''
        return 'if (%s) { %s }%s' % (self.expression(2), self.statements(depth - 1, inside), other)

    def counter(self):
        self.counters += 1
        return 'i%d' % self.counters

    def counting(self, depth, inside):
        i = self.counter()
        jump = self.pick(['', 'if (%s == 1) { continue; }' % i, 'if (%s == 2) { break; }' % i])
        return 'for (var %s = 0; %s < %d; %s++) { %s %s %s }' % (
            i, i, self.random.randint(1, 4), i, self.statements(depth - 1, inside), jump,
            self.statement(depth - 1, inside))

    def testing(self, depth, inside):
        i = self.counter()
        form = self.pick(['var %s = 0; while (%s++ < %d) { %s }', 'var %s = 0; do { %s } while (%s++ < %d);'])
        body, most = self.statements(depth - 1, inside), self.random.randint(0, 3)
        return form % ((i, i, most, body) if 'while (%s++ < %d) {' in form else (i, body, i, most))

    def visiting(self, depth, inside):
        """A `for-in` over names in the order of the alphabet, as some engines visit them, and no indices."""
        i = self.counter()
        names = sorted(self.random.sample(['p', 'q', 'r', 's', 't', 'u'], self.random.randint(0, 4)))
        entries = ', '.join(self.entry(name, 1) for name in names)
        cut = 'delete %so.%s;' % (i, self.pick('pqrstu')) if self.often(40) and 'delete' not in self.without else ''
        return 'var %so = { %s }; for (var %s in %so) { print(%s); %s %s }' % (
            i, entries, i, i, i, cut, self.statement(depth - 1, inside))

    def attempt(self, depth, inside):
        body = self.statements(depth - 1, inside)
        if self.often(40):
            body += ' throw %s;' % self.expression(2)
        form = 1 if 'finally' in self.without else self.random.randrange(3)
        catch = ' catch (x) { print("caught", show(x)); %s }' % self.statement(depth - 1, inside) if form else ''
        last = ' finally { print("finally"); %s }' % self.statement(depth - 1, inside) if form != 1 else ''
        return 'try { %s }%s%s' % (body, catch, last)

    def choice(self, depth, inside):
        parts = ['case %s: %s' % (self.expression(1), self.statement(depth - 1, inside)) for _ in range(3)]
        parts[self.random.randrange(3)] = 'default: ' + self.statement(depth - 1, inside)
        parts = [part + self.pick([' break;', '']) for part in parts]
        return 'switch (%s) { %s }' % (self.expression(2), ' '.join(parts))

    def labelled(self, depth, inside):
        self.labels += 1
        label, i = 'L%d' % self.labels, self.counter()
        jump = self.pick(['break', 'continue']) + ' ' + label
        body = self.statements(depth - 1, inside)
        if self.often(50) and 'finally' not in self.without:
            body = 'try { ' + body + ' } finally { print("left"); if (' + i + ' == 1) { ' + jump + '; } }'
        else:
            body = '{ ' + body + ' if (' + i + ' == 0) { ' + jump + '; } }'
        return '%s: for (var %s = 0; %s < 3; %s++) { for (;;) { ' % (label, i, i, i) + body + ' break; } }'

    # The script

    def declaration(self, name):
        strict = self.pick(['"use strict"; ', '', ''])
        most = 1 if 'deep' in self.without else 9
        guard = 'calls = calls + 1; if (calls > %d) { return %s; } ' % (most, self.pick(['x', '0', '"end"']))
        this = 'if (this) { this.%s = x; } ' % self.pick('pqr') if not strict and self.often(30) else ''
        return 'function %s(x, y) { %s%s%s%s return %s; }' % (
            name, strict, guard, this, self.statements(2, True), self.expression(2))

    def script(self):
        rest = '7, null' if 'holes' in self.without else ', null'
        head = HEAD + (UNSIGNED if 'minus' in self.without else '')
        lines = [head + 'var a = 1, b = "x", c = [1, 2, 3], d = { p: 1, q: "y" }, e, o = { p: 2 };']
        lines += ['var l = [4, "5", %s];' % rest]
        lines += [self.declaration(name) for name in 'fgh']
        for _ in range(self.random.randint(12, 24)):
            lines.append('try { %s } catch (x) { print("thrown", show(x)); }' % self.statement(3, False))
            lines.append('calls = 0;')
        lines += ['print(%s);' % ', '.join('show(%s)' % name for name in self.names + ['o', 'l'])]
        if self.often(20):
            lines.append('throw %s;' % ('1' if 'uncaught' in self.without else self.expression(1)))
        return '\n'.join(lines) + '\n'


def main():
    words = argparse.ArgumentParser()
    words.add_argument('folder')
    words.add_argument('--seed', type=int, required=True)
    words.add_argument('--count', type=int, required=True)
    words.add_argument('--without', default='')
    given = words.parse_args()
    os.makedirs(given.folder, exist_ok=True)
    for number in range(given.seed, given.seed + given.count):
        with open(os.path.join(given.folder, 's%09d.js' % number), 'w', encoding='utf-8') as file:
            file.write(Writer(number, given.without.split(',')).script())


if __name__ == '__main__':
    main()
