'use strict';
// node engines/tools/packages.js LIST [REPORTS]
//
// Packages under their own tests: as they stand, and with the hooks of register.js. LIST has a line for each package:
// its folder, a tab, and the command (of the shell) that runs its tests there. Printed for each: the status of the
// tests; whether they print the same, less times and the lines of stacks; the summary of all processes; and the
// processor time of node in both runs, in seconds, without that of the program jlint. REPORTS takes the report lines,
// each with its source line; what is printed otherwise goes there, too.

const fs = require('fs');
const os = require('os');
const path = require('path');
const { spawnSync } = require('child_process');

const REGISTER = path.join(__dirname, '..', 'register.js');
const PROCESSOR_TIME = path.join(__dirname, 'processor-time.js');
const HEADING = 'package\tstatus\toutput\tfiles\tnot woven\thooks\tleft out\tplain s\twith hooks s\tratio\tlines';

// What a test runner prints, less the times that it took and the lines of stacks.
const comparable = text => text.replace(/ *\(\d+m?s\)/g, '').replace(/^ +at .*\n/gm, '');

function secondsIn(file) {
  const all = fs.existsSync(file) ? fs.readFileSync(file, 'utf8').split('\n') : [];
  return all.reduce((sum, seconds) => sum + Number(seconds), 0);
}

// Runs the command with these modules required first, and answers { printed, status, seconds }.
function ran(folder, command, modules, env, scratch) {
  const times = path.join(scratch, `times.${modules.length}`);
  const run = spawnSync(command, {
    cwd: folder,
    shell: true,
    maxBuffer: 1 << 28,
    env: { ...process.env, ...env, NODE_OPTIONS: modules.map(m => `--require=${m}`).join(' '), PROCESSOR_TIME: times }
  });
  return { printed: comparable(`${run.stdout}${run.stderr}`), status: run.status, seconds: secondsIn(times) };
}

// The answers of all processes of a run as one: { files, notWoven, operations, left, lines }.
function answersIn(folder) {
  const all = { files: 0, notWoven: [], operations: 0, left: 0, lines: [] };
  for (const name of fs.readdirSync(folder).filter(file => file.endsWith('.json'))) {
    const { lines, summary } = JSON.parse(fs.readFileSync(path.join(folder, name), 'utf8'));
    all.files += summary.files;
    all.operations += summary.operations;
    all.left += summary.left;
    all.notWoven.push(...summary.notWoven);
    all.lines.push(...lines);
  }
  return all;
}

function withSource(folder, { file, line, column, rule, count }) {
  const source = fs.readFileSync(path.resolve(folder, file), 'utf8').split('\n')[line - 1];
  return `${file}:${line}:${column} ${rule} ${count}\t${source.trim().slice(0, 160)}`;
}

function compared(folder, command, scratch, note) {
  const plain = ran(folder, command, [PROCESSOR_TIME], {}, scratch);
  const env = { JLINT_FORMAT: 'json', JLINT_OUT: path.join(scratch, '%p.json') };
  const hooked = ran(folder, command, [PROCESSOR_TIME, REGISTER], env, scratch);
  const { files, notWoven, operations, left, lines } = answersIn(scratch);
  const same = hooked.printed === plain.printed && hooked.status === plain.status;
  note(`== ${path.basename(folder)}`, ...lines.map(line => withSource(folder, line)),
    ...notWoven.map(file => `not woven ${file.name}: ${file.why}`));
  if (!same) note('-- as it stands', plain.printed, '-- with hooks', hooked.printed);
  return [path.basename(folder), plain.status, same ? 'same' : 'OTHERWISE', files, notWoven.length, operations, left,
    plain.seconds.toFixed(2), hooked.seconds.toFixed(2), (hooked.seconds / plain.seconds).toFixed(1), lines.length];
}

function main([list, reports]) {
  if (!list) throw new Error('usage: node packages.js LIST [REPORTS]');
  const note = (...lines) => reports && fs.appendFileSync(reports, lines.join('\n') + '\n');
  console.log(HEADING);
  for (const line of fs.readFileSync(list, 'utf8').split('\n').filter(Boolean)) {
    const [folder, command] = line.split('\t');
    const scratch = fs.mkdtempSync(path.join(os.tmpdir(), 'jlint-packages-'));
    console.log(compared(path.resolve(folder), command, scratch, note).join('\t'));
    fs.rmSync(scratch, { recursive: true, force: true });
  }
}

main(process.argv.slice(2));
