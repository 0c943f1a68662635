module.exports = 0 * "x";
