'use strict';
// What a file needs so that `jlint instrument` accepts it, and what turns the rewritten text back.
//
//   adapt(source, options) -> { text, restore(woven), place(line, column) }  or  { refused }
//
// A literal that jlint has no form for (a regular expression, a number that is not whole) and a name that it leaves out
// (Date, JSON, ..) get a stand-in that is a string or a name of edition 5.1. In the rewritten text the stand-in is
// replaced by what it stands for, so the engine evaluates the program's own literal and name, and no operation is added.

const { placesAfter } = require('./places.js');

const LEFT_OUT = new Set(['Date', 'RegExp', 'JSON', 'Infinity', 'parseFloat', 'escape', 'unescape', 'eval', 'decodeURI',
  'decodeURIComponent', 'encodeURI', 'encodeURIComponent']);

function acorn() {
  try {
    return require('acorn');
  } catch (e) {
    throw new Error('the package acorn is not found: `npm install acorn`, or name its folder in NODE_PATH');
  }
}

const EDITION = { ecmaVersion: 5, allowHashBang: true, allowReturnOutsideFunction: true };

function parse(source) {
  return acorn().parse(source, EDITION);
}

// The tree of a text, and its comments { text, start, isLine }.
function parseWithComments(text) {
  const comments = [];
  const onComment = (isBlock, comment, start) => comments.push({ text: comment, start, isLine: !isBlock });
  return { tree: acorn().parse(text, { ...EDITION, onComment }), comments };
}

function isFunction(node) {
  return node.type === 'FunctionDeclaration' || node.type === 'FunctionExpression';
}

// Calls `see(node, parent, key, inFunction)` for each node, outer nodes first.
function walk(node, see, parent = null, key = '', inFunction = false) {
  see(node, parent, key, inFunction);
  const inner = inFunction || isFunction(node);
  for (const name of Object.keys(node)) {
    const part = node[name];
    if (Array.isArray(part)) part.forEach(p => p && p.type && walk(p, see, node, name, inner));
    else if (part && typeof part.type === 'string') walk(part, see, node, name, inner);
  }
}

// A prefix of names and strings that the source has nowhere.
function freePrefix(source) {
  let n = 0;
  while (source.includes(`jl$${n}_`)) n++;
  return `jl$${n}_`;
}

const isOctal = node => /^0[0-9]/.test(node.raw);
const isWhole = node => Number.isSafeInteger(node.value) && !isOctal(node);

// The edits that a tree needs, each { start, end, text }, and the literals that stand-ins stand for.
class Edits {
  constructor(prefix) {
    this.prefix = prefix;
    this.list = [];
    this.literals = [];
    this.directEval = false;
    this.topReturn = false;
  }

  add(start, end, text) {
    this.list.push({ start, end, text });
  }
  // The literal is replaced by a string; `restored(id)` is the call of a hook that evaluates it.
  replaceLiteral(node, restored) {
    this.literals.push(restored);
    this.add(node.start, node.end, `("${this.prefix}${this.literals.length - 1}")`);
  }

  notice(node, inFunction) {
    if (node.type === 'ReturnStatement' && !inFunction) this.topReturn = true;
    if (node.type === 'CallExpression' && node.callee.name === 'eval') this.directEval = true;
  }

  // Functions that begin a block, which edition 5.1 has not: `function f` becomes `var f = function`.
  adaptBlock(node) {
    for (const statement of node.body) {
      if (statement.type !== 'FunctionDeclaration') break;
      this.add(statement.start, statement.id.end, `var ${statement.id.name} = function`);
      this.add(statement.end, statement.end, ';');
    }
  }
  adaptLiteral(node, isKey) {
    if (node.regex) {
      this.replaceLiteral(node, id => `regexp(${id}, ${node.raw})`);
    } else if (typeof node.value === 'number' && !isWhole(node)) {
      if (isKey) this.add(node.start, node.end, JSON.stringify(String(node.value)));
      else this.replaceLiteral(node, id => `T(${id}, ${isOctal(node) ? String(node.value) : node.raw})`);
    } else if (typeof node.value === 'string' && /\\[0-9]/.test(node.raw)) {
      this.add(node.start, node.end, JSON.stringify(node.value));
    }
  }
  adaptName(node) {
    if (LEFT_OUT.has(node.name) && !(node.name === 'eval' && this.directEval)) {
      this.add(node.start, node.end, this.prefix + node.name);
    }
  }

  adaptNode(node, parent, key) {
    const isKey = parent !== null && !parent.computed &&
      ((parent.type === 'Property' && key === 'key') || (parent.type === 'MemberExpression' && key === 'property'));
    if (node.type === 'BlockStatement' && parent !== null && !isFunction(parent)) this.adaptBlock(node);
    else if (node.type === 'Literal') this.adaptLiteral(node, isKey);
    else if (node.type === 'Identifier' && !isKey) this.adaptName(node);
  }
}

function editsOf(tree, source, options) {
  const edits = new Edits(freePrefix(source));
  walk(tree, (node, parent, key, inFunction) => edits.notice(node, inFunction));
  walk(tree, (node, parent, key) => edits.adaptNode(node, parent, key));
  if (source.startsWith('#!')) edits.add(0, 2, '//');
  edits.list.sort((a, b) => a.start - b.start);
  if (edits.topReturn && options.module) { // a module may return at its top level; a program may not
    edits.list.unshift({ start: 0, end: 0, text: '(function () {' });
    edits.add(source.length, source.length, '\n}).apply(this, arguments)');
  }
  return edits;
}

function applied(source, edits) {
  let text = '';
  let at = 0;
  for (const edit of edits) {
    text += source.slice(at, edit.start) + edit.text;
    at = edit.end;
  }
  return text + source.slice(at);
}

function adapt(source, options = {}) {
  let tree;
  try {
    tree = parse(source);
  } catch (e) {
    if (!(e instanceof SyntaxError)) throw e;
    return { refused: 'not of edition 5.1: ' + e.message };
  }
  const { prefix, list, literals } = editsOf(tree, source, options);
  const standIn = new RegExp(`(J\\$\\w*)\\.T\\((\\d+), "${prefix.replace(/\$/g, '\\$')}(\\d+)"\\)`, 'g');
  return {
    text: applied(source, list),
    restore: woven => woven
      .replace(standIn, (all, hooks, id, n) => `${hooks}.${literals[n](id)}`)
      .split(prefix).join(''),
    place: placesAfter(source, list)
  };
}

// A file that is taken as it stands.
function asItStands(source) {
  return { text: source, restore: woven => woven, place: (line, column) => [line, column] };
}

module.exports = { adapt, asItStands, findAcorn: acorn, parseWithComments };
