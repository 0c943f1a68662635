'use strict';
// One pass over the tokens of a rewritten text in its canonical layout.
//
// It finds each function (its parameters, whether it mentions `arguments`, the name that edition 6 gives it) and the ids
// of strict code, and makes three changes:
//
//   1. `try { J$.E(i);` becomes `let J$call = J$.E(i, FILE, this, arguments.length, new.target); try {`, and `J$.L(i)`
//      becomes `J$.L(i, J$call)`: a hook can't see the running call by itself.
//   2. `J$.I(..) - 1`, which is what a postfix `++` is rewritten to, becomes `J$.old(J$.I(..), 1)`: the old value itself,
//      which the new one less 1 is not where numbers have fractions.
//   3. `J$` gets the name that the caller chose.

const CALL = 'J$call';
const TOKEN = /"(?:[^"\\]|\\[^])*"|[\w$\u0080-\uffff]+|[^\s]/g;
const HOOKS = 'J$';

// How many further ids a hook has after its first.
const FURTHER_IDS = { A: 2, I: 2, M: 2, F: 1, N: 1 };

const isWord = token => token !== undefined && /^[\w$\u0080-\uffff]/.test(token);
const nameIn = token => (token[0] === '"' ? JSON.parse(token) : token);

function tokensOf(text) {
  const tokens = [];
  const starts = [];
  TOKEN.lastIndex = 0;
  for (let m; (m = TOKEN.exec(text)) !== null; ) {
    tokens.push(m[0]);
    starts.push(m.index);
  }
  return { tokens, starts };
}

// The name that edition 6 gives the function expression of the token at i, as in `x = J$.W(1, "x", J$.T(2, function (`
// and `key : J$.T(2, function (`.
function nameBefore(tokens, i) {
  if (tokens[i - 4] !== 'T' || tokens[i - 6] !== HOOKS) return null; // J$ . T ( id ,
  const before = tokens[i - 7];
  const text = tokens[i - 8];
  if (before === ':' && text !== '__proto__' && text !== '"__proto__"' && tokens[i - 9] !== '?') {
    return tokens[i - 9] === '{' || tokens[i - 9] === ',' ? nameIn(text) : null;
  }
  if (before === ',' && tokens[i - 12] === 'W' && tokens[i - 14] === HOOKS) return nameIn(text);
  return null;
}

function newHeader(name) {
  return { id: 0, params: 0, mentions: false, hidden: false, name };
}

class Scanner {
  constructor(woven, { number, hooks = HOOKS }) {
    Object.assign(this, tokensOf(woven), { woven, number, hooks });
    this.changes = []; // [from, to, text]
    this.functions = [];
    this.strictIds = [];
    this.lastId = 0;
    this.braces = [{ strict: this.tokens[0] === '"use strict"', body: null }];
    this.openBrackets = []; // indices of the tokens
    this.lastClosed = -1; // the `(` of the last `)`
    this.header = null; // of a function whose body has not begun
  }

  change(from, to, text) {
    this.changes.push([from, to, text]);
  }
  get strict() {
    return this.braces[this.braces.length - 1].strict;
  }
  get innerFunction() {
    for (let i = this.braces.length; i--; ) if (this.braces[i].body) return this.braces[i].body;
    return null;
  }

  // Each method takes the index of a token and answers that of the last token that it read.
  functionWord(i) {
    const { tokens } = this;
    const named = isWord(tokens[i + 1]) && tokens[i + 2] === '(';
    if (!named && tokens[i + 1] !== '(') return i;
    if (tokens[i + 1] === 'arguments' && this.innerFunction) this.innerFunction.hidden = true;
    this.header = newHeader(named ? null : nameBefore(tokens, i));
    return i;
  }
  accessorWord(i) {
    const before = this.tokens[i - 1];
    if (this.tokens[i + 2] === '(' && (before === '{' || before === ',')) this.header = newHeader(null);
    return i;
  }
  openBracket(i) {
    this.openBrackets.push(i);
    if (!this.header || this.header.id) return i;
    let at = i + 1;
    for (; this.tokens[at] !== ')'; at++) {
      if (this.tokens[at] === ',') continue;
      this.header.params++;
      if (this.tokens[at] === 'arguments') this.header.hidden = true;
    }
    this.lastClosed = this.openBrackets.pop();
    return at;
  }
  closeBracket(i) {
    this.lastClosed = this.openBrackets.pop();
    return i;
  }
  openBrace(i) {
    const begins = this.header !== null && this.tokens[i + 1] === '"use strict"';
    this.braces.push({ strict: this.strict || begins, body: this.header });
    this.header = null;
    return i;
  }
  closeBrace(i) {
    this.braces.pop();
    return i;
  }

  hook(i) {
    const { tokens, starts } = this;
    if (tokens[i + 1] !== '.') return i;
    const letter = tokens[i + 2];
    const id = Number(tokens[i + 4]);
    if (this.hooks !== HOOKS && letter !== 'E') this.change(starts[i], starts[i] + HOOKS.length, this.hooks);
    this.lastId = Math.max(this.lastId, id + (FURTHER_IDS[letter] || 0));
    if (this.strict) this.strictIds.push(id);
    if (letter === 'E') return this.enterHook(i, id);
    if (letter === 'L') this.change(starts[i + 5], starts[i + 5], ', ' + CALL);
    return i;
  }
  enterHook(i, id) {
    const { starts } = this;
    const f = this.innerFunction;
    f.id = id;
    this.functions.push(f);
    const count = f.hidden ? '-1' : 'arguments.length';
    const call = `let ${CALL} = ${this.hooks}.E(${id}, ${this.number}, this, ${count}, new.target); `;
    this.change(starts[i - 2], starts[i - 2], call); // before `try {`
    this.change(starts[i], starts[i + 6] + 1, ''); // J$ . E ( id ) ;
    return i + 6;
  }

  argumentsWord(i) {
    const before = this.tokens[i - 1];
    const isLabel = this.tokens[i + 1] === ':' || before === 'break' || before === 'continue';
    if (!isLabel && this.innerFunction) this.innerFunction.mentions = true;
    return i;
  }
  // `J$.I(..) - 1` or `(..J$.W(..)..) - 1`: a postfix operator
  sign(i) {
    const { tokens, starts } = this;
    if (tokens[i + 1] !== '1' || tokens[i - 1] !== ')') return i;
    const open = this.lastClosed;
    const start = tokens[open - 1] === 'I' && tokens[open - 3] === HOOKS ? open - 3 : open;
    this.change(starts[start], starts[start], ` ${this.hooks}.old(`);
    this.change(starts[i - 1] + 1, starts[i + 1] + 1, `, ${tokens[i] === '-' ? '1' : '-1'})`);
    return i;
  }

  token(i) {
    switch (this.tokens[i]) {
      case 'function': return this.functionWord(i);
      case 'get':
      case 'set': return this.accessorWord(i);
      case '(': return this.openBracket(i);
      case ')': return this.closeBracket(i);
      case '{': return this.openBrace(i);
      case '}': return this.closeBrace(i);
      case HOOKS: return this.hook(i);
      case 'arguments': return this.argumentsWord(i);
      case '-':
      case '+': return this.sign(i);
      default: return i;
    }
  }

  run() {
    for (let i = 0; i < this.tokens.length; i++) i = this.token(i);
    return {
      lastId: this.lastId,
      text: changed(this.woven, this.changes),
      functions: this.functions
        .sort((a, b) => a.id - b.id)
        .map(({ id, params, mentions, name }) => ({ id, params, mentions, name })),
      strict: ranges(this.strictIds.sort((a, b) => a - b))
    };
  }
}

function changed(text, changes) {
  changes.sort((a, b) => a[0] - b[0] || a[1] - b[1]);
  let out = '';
  let at = 0;
  for (const [from, to, put] of changes) {
    out += text.slice(at, from) + put;
    at = to;
  }
  return out + text.slice(at);
}

// Sorted numbers as ranges [first, last].
function ranges(sorted) {
  const out = [];
  for (const n of sorted) {
    const last = out[out.length - 1];
    if (last !== undefined && n <= last[1] + 1) last[1] = n;
    else out.push([n, n]);
  }
  return out;
}

// `number` is the file's, `hooks` the name that its hooks get.
function scan(woven, options) {
  return new Scanner(woven, options).run();
}

module.exports = { CALL, scan };
