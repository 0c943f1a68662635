'use strict';
// Runs a page of make.js in headless Chromium, and takes its records. BROWSER names another program than `chromium`.

const fs = require('fs');
const os = require('os');
const path = require('path');
const { execFile } = require('child_process');

const MOST_OUTPUT = 1 << 29; // bytes
const LONGEST = 120000; // milliseconds

// Chromium's own sandbox can't be used by root.
function words(url, profile) {
  const isRoot = process.getuid && process.getuid() === 0;
  return ['--headless', ...(isRoot ? ['--no-sandbox'] : []), '--disable-gpu', `--user-data-dir=${profile}`,
    '--virtual-time-budget=8000', '--dump-dom', url];
}

// What the page at a URL has become, as text.
function domOf(url) {
  const profile = fs.mkdtempSync(path.join(os.tmpdir(), 'jlint-browser-'));
  const program = process.env.BROWSER || 'chromium';
  return new Promise((resolve, reject) => {
    execFile(program, words(url, profile), { maxBuffer: MOST_OUTPUT, timeout: LONGEST }, (error, out) => {
      fs.rmSync(profile, { recursive: true, force: true, maxRetries: 5 });
      if (error) reject(new Error(`${program} did not run ${url}: ${error.message.split('\n')[0]}`));
      else resolve(out);
    });
  });
}

module.exports = { domOf };
