// What node gives a module: require, module, exports, __filename, __dirname, process and global. `jl --commonjs` puts
// the script into a function and hands that to `commonjs`. A module that is not in the table below is not found: put
// it there in a prelude of your own, as `requirable.name = function (module, exports) { .. };`.

var global = this;

var process = {
  argv: ["node", "script.js"],
  env: {},
  platform: "jlint",
  version: "",
  versions: {},
  queue: [],
  cwd: function () { return "/"; },
  on: function () { return process; },
  nextTick: function (callback) { process.queue.push(callback); }
};

var requirable = {
  util: function (module, exports) {
    exports.inherits = function (constructor, parent) {
      constructor.super_ = parent;
      constructor.prototype = Object.create(parent.prototype, {
        constructor: { value: constructor, writable: true, enumerable: false, configurable: true }
      });
    };
    exports.isArray = Array.isArray;
    exports.inspect = String;
    exports.format = function () { return Array.prototype.join.call(arguments, " "); };
  },

  assert: function (module) {
    function assert(value, message) {
      if (!value) {
        throw new Error(message === undefined ? "assertion failed" : message);
      }
    }
    assert.ok = assert;
    assert.strictEqual = function (actual, expected, message) { assert(actual === expected, message); };
    assert.notStrictEqual = function (actual, expected, message) { assert(actual !== expected, message); };
    assert.throws = function (body, message) {
      var hasThrown = false;
      try {
        body();
      } catch (error) {
        hasThrown = true;
      }
      assert(hasThrown, message);
    };
    module.exports = assert;
  },

  events: function (module) {
    function EventEmitter() { this.listenersOf = {}; }
    function listOf(emitter, name) {
      var lists = emitter.listenersOf;
      if (!Object.prototype.hasOwnProperty.call(emitter, "listenersOf")) {
        lists = emitter.listenersOf = {};
      }
      if (!Object.prototype.hasOwnProperty.call(lists, name)) {
        lists[name] = [];
      }
      return lists[name];
    }
    EventEmitter.prototype.on = function (name, listener) {
      listOf(this, name).push(listener);
      return this;
    };
    EventEmitter.prototype.addListener = EventEmitter.prototype.on;
    EventEmitter.prototype.once = function (name, listener) {
      var emitter = this;
      function wrapper() {
        emitter.removeListener(name, wrapper);
        listener.apply(emitter, arguments);
      }
      return this.on(name, wrapper);
    };
    EventEmitter.prototype.removeListener = function (name, listener) {
      var list = listOf(this, name), at = list.indexOf(listener);
      if (at >= 0) {
        list.splice(at, 1);
      }
      return this;
    };
    EventEmitter.prototype.emit = function (name) {
      var list = listOf(this, name).slice(), given = Array.prototype.slice.call(arguments, 1), emitter = this;
      list.forEach(function (listener) { listener.apply(emitter, given); });
      return list.length > 0;
    };
    EventEmitter.EventEmitter = EventEmitter;
    module.exports = EventEmitter;
  }
};

var commonjs = (function () {
  var loaded = {};

  function makeModule(name) {
    return { id: name, exports: {}, loaded: false, children: [] };
  }

  function require(name) {
    var found;
    if (!Object.prototype.hasOwnProperty.call(loaded, name)) {
      if (!Object.prototype.hasOwnProperty.call(requirable, name)) {
        throw new Error("Cannot find module '" + name + "'");
      }
      found = makeModule(name);
      loaded[name] = found;
      requirable[name].call(found.exports, found, found.exports, require);
      found.loaded = true;
    }
    return loaded[name].exports;
  }

  require.cache = loaded;

  return function (body) {
    var main = makeModule(".");
    require.main = main;
    body.call(main.exports, main.exports, require, main, "/script.js", "/");
    main.loaded = true;
    while (process.queue.length > 0) {
      process.queue.shift().call(undefined);
    }
    return main.exports;
  };
})();
