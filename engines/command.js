'use strict';
// The top of the commands of this folder: what can't be done is told in a line on standard error, with status 2.

const FAILED = 2;

function fail(error) {
  process.stderr.write(`jlint: ${error.message}\n`);
  process.exit(FAILED);
}

// Calls `main` with the words and the environment. A reader that closes ends the command; where nobody reads messages,
// there are none.
module.exports = function command(main) {
  process.stderr.on('error', () => {});
  process.stdout.on('error', error => (error.code === 'EPIPE' ? process.exit(FAILED) : fail(error)));
  try {
    main(process.argv.slice(2), process.env);
  } catch (error) {
    fail(error);
  }
};
