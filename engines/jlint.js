'use strict';
// The program jlint, as a command that is run. The environment's JLINT names it.

const fs = require('fs');
const path = require('path');
const { spawnSync } = require('child_process');

const MOST_OUTPUT = 1 << 30; // bytes
const BAD_WORDS = 2;
const LAST_ANSWER = 6; // the greatest status with a whole answer

const isProgram = file => {
  try {
    fs.accessSync(file, fs.constants.X_OK);
    return fs.statSync(file).isFile();
  } catch (e) {
    return false;
  }
};

// The path of the program, also for a process that has gone to another folder.
function found(name) {
  const paths = name.includes(path.sep)
    ? [path.resolve(name)]
    : (process.env.PATH || '').split(path.delimiter).map(folder => path.join(folder, name));
  const file = paths.find(isProgram);
  if (file === undefined) throw new Error(`there is no program ${name} (JLINT names it)`);
  return file;
}

let program = null;

// Throws where there is no program.
function findProgram() {
  if (program === null) program = found(process.env.JLINT || 'jlint');
  return program;
}

// What the program writes for these words and this input.
function jlint(words, input) {
  const file = findProgram();
  const run = spawnSync(file, words, { input, maxBuffer: MOST_OUTPUT });
  if (run.error && run.error.code !== 'EPIPE') {
    throw new Error(`cannot run ${file} (JLINT names it): ${run.error.message}`);
  }
  if (run.status === null) throw new Error(`${file} ${words.join(' ')} was ended by ${run.signal}`);
  if (run.status === BAD_WORDS || run.status > LAST_ANSWER) {
    throw new Error(`${file} ${words.join(' ')} ended with status ${run.status}`);
  }
  return run.stdout.toString();
}

module.exports = { findProgram, jlint };
