function module() { } var Symbol = 1, require = null, exports = 2; console.log(typeof module, Symbol, require, exports);
