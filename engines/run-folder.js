'use strict';
// The records of a run on disk, in a folder of its own. For file number N there are
//
//   N.name   its path            N.ops    the lines of operations as they came
//   N.head   rows and off        N.left   what was left out: `ID KIND REASON COUNT` a line
//
// All but N.left are there also where the process was killed.

const fs = require('fs');
const path = require('path');
const { linesOf } = require('./places.js');

const LONGEST_RECORD = 268435456; // bytes that `replay` accepts
const RECORD_FRAME = 64; // bytes for the lines `ops N` and `end`
const NOT_WOVEN = 'not-woven.json'; // which files ran as they stood, and why: written at the end

// A folder that takes the lines of operations. `write` is a host's for the hooks.
function openRun(folder) {
  const { writeSync, openSync } = fs;
  const { byteLength } = Buffer;
  const files = [];
  fs.mkdirSync(folder, { recursive: true });
  const inFolder = (n, part) => path.join(folder, `${n}.${part}`);

  return {
    folder,
    add(name, head) {
      const n = files.length;
      fs.writeFileSync(inFolder(n, 'name'), name);
      fs.writeFileSync(inFolder(n, 'head'), head);
      files.push({ out: openSync(inFolder(n, 'ops'), 'w'), room: LONGEST_RECORD - head.length - RECORD_FRAME });
      return n;
    },
    // Whether the record takes more.
    write(n, lines) {
      try {
        const file = files[n];
        const bytes = byteLength(lines);
        if (file.room < bytes) return false;
        writeSync(file.out, lines);
        file.room -= bytes;
        return true;
      } catch (e) {
        if (e instanceof RangeError) throw e; // the program's stack is full, and not the disk
        return false;
      }
    },
    left(n, lines) {
      if (n < files.length) fs.writeFileSync(inFolder(n, 'left'), lines);
    }
  };
}

function leftOut(lines) {
  return lines.split('\n').filter(Boolean).map(line => {
    const [, id, kind, truth, reason, count] = /^(\d+) (\w+)( [tf])? (.+) (\d+)$/.exec(line);
    return { id: Number(id), kind, truth: (truth || '').trim(), reason, count: Number(count) };
  });
}

function lineCount(bytes) {
  let n = 0;
  for (let i = bytes.indexOf(10); i >= 0; i = bytes.indexOf(10, i + 1)) n++;
  return n;
}

// The files of a run: { name, left, operations, record }.
function readRun(folder) {
  const files = [];
  const read = (n, part) => {
    const file = path.join(folder, `${n}.${part}`);
    return fs.existsSync(file) ? fs.readFileSync(file) : Buffer.alloc(0);
  };
  for (let n = 0; fs.existsSync(path.join(folder, `${n}.name`)); n++) {
    const all = read(n, 'ops');
    const whole = all.subarray(0, all.lastIndexOf(10) + 1); // a killed process may leave part of a line
    const operations = lineCount(whole);
    const frame = [read(n, 'head'), Buffer.from(`ops ${operations}\n`), whole, Buffer.from('end\n')];
    files.push({
      name: read(n, 'name').toString(),
      left: leftOut(read(n, 'left').toString()),
      operations,
      record: Buffer.concat(frame)
    });
  }
  return files;
}

// The files of a run whose folder somebody named.
function readNamedRun(folder) {
  const has = name => fs.existsSync(path.join(folder, name));
  if (!has('0.name') && !has(NOT_WOVEN)) {
    throw new Error(`${folder} has no records: of JLINT_RUN, name the folder of one process`);
  }
  return readRun(folder);
}

// The lines of a file's source, none where it is there no more.
function sourceLines({ name }) {
  return fs.existsSync(name) ? linesOf(fs.readFileSync(name, 'utf8')) : [];
}

module.exports = { openRun, readRun, readNamedRun, sourceLines, NOT_WOVEN };
