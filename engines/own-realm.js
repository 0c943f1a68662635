'use strict';
// Loads a module of this folder, and what it requires, into a realm of its own. The program that is observed may
// redefine the builtins of its realm (a polyfill of Array.prototype.push is rewritten like any other function): the
// tool's own code must neither be upset by that nor stand in the record.

const fs = require('fs');
const vm = require('vm');
const Module = require('module');

module.exports = function ownRealm(file) {
  const { createRequire, builtinModules } = Module;
  const { compileFunction } = vm;
  const { readFileSync } = fs;
  const realm = vm.createContext({ process, Buffer, console });
  const loaded = new Map();

  function load(name) {
    if (loaded.has(name)) return loaded.get(name).exports;
    const module = { exports: {} };
    loaded.set(name, module);
    const near = createRequire(name);
    const requireHere = wanted => (builtinModules.includes(wanted) ? require(wanted) : load(near.resolve(wanted)));
    const parameters = ['exports', 'require', 'module', '__dirname'];
    const body = compileFunction(readFileSync(name, 'utf8'), parameters, { filename: name, parsingContext: realm });
    body(module.exports, requireHere, module, require('path').dirname(name));
    return module.exports;
  }
  return load(file);
};
