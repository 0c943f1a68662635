'use strict';
// The rows of a script's map and what its comments switch off, as `jlint record` writes them, from a tree of the script.
// So a file costs one start of the program. tests/rows.test.js holds them against the program's own.

const { placesIn } = require('./places.js');
const { RULES } = require('./rules.js');

const OFF = /^ jlint-off(-next)? ([a-z-]+(?:,[a-z-]+)*) *$/;

const isMember = node => node.type === 'MemberExpression';

// Rows in the order of their ids: those of a node come before those of its parts, which follow in the order of the text,
// the functions that a body declares before its statements.
class Rows {
  constructor() {
    this.list = [];
  }

  add(kind, node) {
    this.list.push({ kind, start: node.start });
  }
  each(nodes) {
    for (const node of nodes) if (node) this.node(node);
  }
  node(node) {
    const method = this[node.type];
    if (!method) throw new Error(`no rows of ${node.type}`);
    method.call(this, node);
  }

  // Scripts and functions. `at` is the node whose place they have.
  Program(node) {
    this.list.push({ kind: 'ScriptEnter', start: 0 }, { kind: 'ScriptExit', start: 0 });
    this.body(node.body);
  }
  // Directives do nothing (14.1).
  body(statements) {
    const isDeclaration = statement => statement.type === 'FunctionDeclaration';
    const isDirective = statement => statement.directive !== undefined;
    this.each(statements.filter(isDeclaration));
    this.each(statements.filter(statement => !isDeclaration(statement) && !isDirective(statement)));
  }
  functionRows(node, at) {
    this.add('FunctionEnter', at);
    this.add('FunctionExit', at);
    this.body(node.body.body);
  }
  FunctionDeclaration(node) { this.functionRows(node, node); }
  FunctionExpression(node) {
    this.add('FunctionLiteral', node);
    this.functionRows(node, node);
  }

  // Statements.
  VariableDeclaration(node) { this.each(node.declarations); }
  VariableDeclarator(node) {
    if (!node.init) return;
    this.add('Write', node.id);
    this.node(node.init);
  }
  EmptyStatement() {}
  DebuggerStatement() {}
  BreakStatement() {}
  ContinueStatement() {}
  ExpressionStatement(node) { this.node(node.expression); }
  BlockStatement(node) { this.each(node.body); }
  LabeledStatement(node) { this.node(node.body); }
  IfStatement(node) {
    this.add('Conditional', node.test);
    this.each([node.test, node.consequent, node.alternate]);
  }
  DoWhileStatement(node) {
    this.add('Conditional', node.test);
    this.each([node.body, node.test]);
  }
  WhileStatement(node) {
    this.add('Conditional', node.test);
    this.each([node.test, node.body]);
  }
  ForStatement(node) {
    if (node.test) this.add('Conditional', node.test);
    this.each([node.init, node.test, node.update, node.body]);
  }
  ForInStatement(node) {
    this.add('ForIn', node);
    this.each([node.right, node.body]);
  }
  ReturnStatement(node) {
    if (!node.argument) return;
    this.add('Return', node);
    this.node(node.argument);
  }
  ThrowStatement(node) {
    this.add('Throw', node);
    this.node(node.argument);
  }
  SwitchStatement(node) { this.each([node.discriminant, ...node.cases]); }
  SwitchCase(node) { this.each([node.test, ...node.consequent]); }
  TryStatement(node) {
    if (node.handler) this.add('Catch', node.handler.param);
    this.each([node.block, node.handler && node.handler.body, node.finalizer]);
  }

  // Expressions.
  ThisExpression() {}
  Identifier(node) { this.add('Read', node); }
  Literal(node) { this.add('Literal', node); }
  ArrayExpression(node) {
    this.add('ArrayLiteral', node);
    this.each(node.elements);
  }
  ObjectExpression(node) {
    this.add('ObjectLiteral', node);
    for (const property of node.properties) {
      if (property.kind === 'init') this.node(property.value);
      else this.functionRows(property.value, property);
    }
  }
  memberParts(node) { this.each([node.object, node.computed && node.property]); }
  MemberExpression(node) {
    this.add('GetField', node);
    this.memberParts(node);
  }
  CallExpression(node) {
    if (isMember(node.callee)) this.add('GetField', node.callee);
    this.add('InvokePre', node);
    this.add('InvokePost', node);
    if (isMember(node.callee)) this.memberParts(node.callee);
    else this.node(node.callee);
    this.each(node.arguments);
  }
  NewExpression(node) {
    this.add('InvokePre', node);
    this.add('InvokePost', node);
    this.each([node.callee, ...node.arguments]);
  }
  UnaryExpression(node) {
    const { operator, argument } = node;
    if (operator === 'delete') this.deleteRows(node);
    else if (operator === 'typeof' && argument.type === 'Identifier') this.add('TypeofName', node);
    else {
      this.add('Unary', node);
      this.node(argument);
    }
  }
  deleteRows(node) {
    if (node.argument.type === 'Identifier') return;
    if (!isMember(node.argument)) {
      this.node(node.argument);
      return;
    }
    this.add('DeleteField', node);
    this.memberParts(node.argument);
  }

  // What reads a target, computes, and writes it. It begins with its target, where no operator stands before.
  computed(kind, target, at) {
    this.add(isMember(target) ? 'GetField' : 'Read', at);
    this.add(kind, at);
    this.add(isMember(target) ? 'PutField' : 'Write', at);
  }
  target(target) {
    if (isMember(target)) this.memberParts(target);
  }
  UpdateExpression(node) {
    this.computed('Unary', node.argument, node.prefix ? node : node.argument);
    this.target(node.argument);
  }
  AssignmentExpression(node) {
    const { left, operator, right } = node;
    if (operator === '=') this.add(isMember(left) ? 'PutField' : 'Write', left);
    else this.computed('Binary', left, left);
    this.target(left);
    this.node(right);
  }
  BinaryExpression(node) {
    this.add('Binary', node);
    this.each([node.left, node.right]);
  }
  LogicalExpression(node) {
    this.add('Conditional', node.left);
    this.each([node.left, node.right]);
  }
  ConditionalExpression(node) {
    this.add('Conditional', node.test);
    this.each([node.test, node.consequent, node.alternate]);
  }
  SequenceExpression(node) { this.each(node.expressions); }
}

function rowsOf(tree) {
  const rows = new Rows();
  rows.node(tree);
  return rows.list;
}

// Pairs of a line and the number of a rule, by line and rule, each once.
function offOf(comments, placeOf) {
  const pairs = new Map();
  for (const { text, start, isLine } of comments) {
    const [, next, names] = (isLine && OFF.exec(text)) || [];
    const rules = names ? names.split(',').map(name => RULES.indexOf(name)) : [];
    if (rules.includes(-1)) continue;
    const there = placeOf(start)[0] + (next ? 1 : 0);
    for (const rule of rules) pairs.set(there * RULES.length + rule, [there, rule]);
  }
  return [...pairs].sort((a, b) => a[0] - b[0]).map(([, pair]) => pair);
}

// The beginning of the record of a text with this tree and these comments { text, start, isLine }; `place(line, column)`
// answers the place to write.
function headOf(text, { tree, comments }, place) {
  const placeOf = placesIn(text);
  const rows = rowsOf(tree);
  const off = offOf(comments, placeOf);
  const lines = ['jlint-record 1', `rows ${rows.length}`];
  for (const { kind, start } of rows) lines.push(`${kind} ${place(...placeOf(start)).join(':')}`);
  lines.push(`off ${off.length}`);
  for (const [line, rule] of off) lines.push(`${line} ${RULES[rule]}`);
  return { rows: rows.length, text: lines.join('\n') + '\n' };
}

module.exports = { headOf };
