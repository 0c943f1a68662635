'use strict';
// The words of the environment, which register.js tells, read and checked: an Error says which of them is wrong.

const { RULES } = require('./rules.js');

// They say much that is meant of callbacks and of defaults on prototypes, so on engines they have to be asked for.
const ASKED_FOR = ['extra-arguments', 'shadow-write'];
const DEFAULT_RULES = RULES.filter(name => !ASKED_FOR.includes(name));
const FORMATS = ['text', 'unix', 'json'];
const LONGEST_TEXT = 1000; // UTF-16 units
const MOST_DIGITS = 9;

function pattern(text) {
  try {
    return new RegExp(text);
  } catch (e) {
    throw new Error(`JLINT_FILES is no regular expression: ${e.message}`);
  }
}

// The words by which `replay` chooses rules.
function chosenRules(named) {
  if (named === 'all') return [];
  const names = named ? named.split(',') : DEFAULT_RULES;
  for (const [n, name] of names.entries()) {
    if (!RULES.includes(name)) throw new Error(`JLINT_RULES: there is no rule '${name}'`);
    if (names.indexOf(name) !== n) throw new Error(`JLINT_RULES: the rule '${name}' is named twice`);
  }
  return ['--rules', names.join(',')];
}

function oneOf(name, text, choices) {
  if (!choices.includes(text)) throw new Error(`${name} is '${text}', and takes ${choices.join(', ')}`);
  return text;
}

function whole(name, text, otherwise) {
  if (!text) return otherwise;
  if (!/^[0-9]+$/.test(text) || text.length > MOST_DIGITS) {
    throw new Error(`${name} is '${text}', which is no whole number`);
  }
  return Number(text);
}

module.exports = function settings(env) {
  return {
    files: env.JLINT_FILES ? pattern(env.JLINT_FILES) : null,
    rules: chosenRules(env.JLINT_RULES),
    format: oneOf('JLINT_FORMAT', env.JLINT_FORMAT || 'text', FORMATS),
    out: env.JLINT_OUT || null,
    run: env.JLINT_RUN || null,
    longest: whole('JLINT_TEXT', env.JLINT_TEXT, LONGEST_TEXT),
    hasStatus: oneOf('JLINT_STATUS', env.JLINT_STATUS || '0', ['0', '1']) === '1',
    adapts: oneOf('JLINT_ADAPT', env.JLINT_ADAPT || '1', ['0', '1']) === '1',
    timeout: whole('JLINT_TIMEOUT', env.JLINT_TIMEOUT, undefined)
  };
};
module.exports.chosenRules = chosenRules;
