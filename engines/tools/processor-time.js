'use strict';
// Required by the processes that packages.js starts: each adds the seconds of processor time that it took to a file.

const fs = require('fs');

process.on('exit', () => {
  const { user, system } = process.cpuUsage();
  fs.appendFileSync(process.env.PROCESSOR_TIME, `${(user + system) / 1e6}\n`);
});
