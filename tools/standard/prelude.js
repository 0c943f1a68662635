// Puts the letter of edition 5.1 in the place of what other engines do, so that all else can be compared.
(function () {
  var has = Object.prototype.hasOwnProperty;
  function put(holder, name, value) {
    Object.defineProperty(holder, name, { value: value, writable: true, enumerable: false, configurable: true });
  }
  // 15.4.4.4 and 15.4.4.10 define elements alone, so that `length` counts no holes at the end.
  function toLast(list) {
    var k = list.length;
    while (k > 0 && !has.call(list, k - 1)) { k -= 1; }
    list.length = k;
    return list;
  }
  var concat = Array.prototype.concat, slice = Array.prototype.slice, splice = Array.prototype.splice;
  put(Array.prototype, "concat", function (item) { return toLast(concat.apply(this, arguments)); });
  put(Array.prototype, "slice", function (start, end) { return toLast(slice.apply(this, arguments)); });
  // 15.4.4.12: an argument that isn't given is undefined, of which ToInteger is 0.
  put(Array.prototype, "splice", function (start, count) {
    var words = slice.apply(arguments);
    while (words.length < 2) { words.push(0); }
    return toLast(splice.apply(this, words));
  });
  // 15.4.4.6, 15.4.4.7, 15.4.4.9, 15.4.4.12 and 15.4.4.13 put `length` at their end even where it stays as it is.
  ["pop", "push", "shift", "splice", "unshift"].forEach(function (name) {
    var given = Array.prototype[name];
    put(Array.prototype, name, function () {
      "use strict";
      var answer = given.apply(this, arguments);
      if (Array.isArray(this) && Object.isFrozen(this)) { throw new TypeError("frozen"); }
      if (Array.isArray(this)) { this.length = this.length; }
      return answer;
    });
  });
  // 15.8.2.15: a whole number is its own.
  var round = Math.round;
  put(Math, "round", function (value) {
    var number = Number(value);
    return number % 1 === 0 ? number : round(number);
  });
  // 15.2.3.2 to 15.2.3.14: the first argument has to be an object.
  function forObjects(name) {
    var given = Object[name];
    put(Object, name, function (object) {
      if (Object(object) !== object) { throw new TypeError("not an object"); }
      return given.apply(Object, arguments);
    });
  }
  ["getPrototypeOf", "getOwnPropertyDescriptor", "getOwnPropertyNames", "seal", "freeze", "preventExtensions",
    "isSealed", "isFrozen", "isExtensible", "keys"].forEach(forObjects);
})();

// mujs alone: builtins that depart from edition 5.1, written anew by the steps of their sections.
if (!Object.getOwnPropertyDescriptor([], "length")) {
  (function () {
    var ownNames = Object.getOwnPropertyNames, describe = Object.getOwnPropertyDescriptor;
    var define = Object.defineProperty, isEnumerable = Object.prototype.propertyIsEnumerable;
    var substring = String.prototype.substring, parse = parseInt;
    function put(holder, name, value) {
      define(holder, name, { value: value, writable: true, enumerable: false, configurable: true });
    }
    function isObject(value) { return Object(value) === value; }
    function objectOf(value) {
      if (value === undefined || value === null) { throw new TypeError("no object"); }
      return Object(value);
    }
    function textOf(value) {
      if (value === undefined || value === null) { throw new TypeError("no object"); }
      return String(value);
    }
    function integerOf(value) {
      var number = +value;
      return number !== number ? 0 : number < 0 ? -Math.floor(-number) : Math.floor(number);
    }
    function within(number, most) { return number < 0 ? 0 : number > most ? most : number; }
    function isOwn(object, name) {
      var names = ownNames(object), k;
      for (k = 0; k < names.length; k += 1) { if (String(names[k]) === name) { return true; } }
      return false;
    }
    // 8.12.1 and 15.4.5: mujs keeps elements and lengths of arrays apart from other properties.
    function own(object, name) {
      var found;
      if (!isOwn(object, name)) { return undefined; }
      found = describe(object, name);
      return found || { value: object[name], writable: typeof object !== "string" && !(object instanceof String),
        enumerable: name !== "length", configurable: Array.isArray(object) && name !== "length" };
    }
    put(Object, "getOwnPropertyNames", function (object) {
      if (!isObject(object)) { throw new TypeError("not an object"); }
      return ownNames(object).map(String).filter(function (name) {
        return name !== "stackTrace" || !(object instanceof Error);
      });
    });
    put(Object, "keys", function (object) {
      return Object.getOwnPropertyNames(object).filter(function (name) { return own(object, name).enumerable; });
    });
    put(Object, "getOwnPropertyDescriptor", function (object, name) {
      if (!isObject(object)) { throw new TypeError("not an object"); }
      return own(object, String(name));
    });
    put(Object.prototype, "hasOwnProperty", function (name) {
      var text = String(name);
      return isOwn(objectOf(this), text);
    });
    put(Object.prototype, "propertyIsEnumerable", function (name) {
      var text = String(name), found = own(objectOf(this), text);
      return found !== undefined && found.enumerable;
    });
    // 8.10.5
    function descriptor(given) {
      var made = {};
      if (!isObject(given)) { throw new TypeError("not an object"); }
      if ("enumerable" in given) { made.enumerable = !!given.enumerable; }
      if ("configurable" in given) { made.configurable = !!given.configurable; }
      if ("value" in given) { made.value = given.value; }
      if ("writable" in given) { made.writable = !!given.writable; }
      ["get", "set"].forEach(function (name) {
        if (!(name in given)) { return; }
        made[name] = given[name];
        if (made[name] !== undefined && typeof made[name] !== "function") { throw new TypeError("no function"); }
      });
      if (("get" in made || "set" in made) && ("value" in made || "writable" in made)) { throw new TypeError("both"); }
      return made;
    }
    function same(one, other) { return one === other || (one !== one && other !== other); }
    // Whether a property has to be made anew: mujs adds restrictions and takes none away.
    function isRaised(old, full) {
      return (!("value" in old) && "value" in full) || ("value" in old && !old.writable && !("value" in full))
        || (full.enumerable && !old.enumerable)
        || ("value" in old && !old.writable && (full.writable || !same(old.value, full.value)));
    }
    // 8.12.9, of names that are neither elements of an array nor its length.
    function putOwn(object, name, given) {
      var old = own(object, name), accessor = "get" in given || "set" in given;
      var data = "value" in given || "writable" in given, full = {};
      if (!old && !Object.isExtensible(object)) { throw new TypeError("not extensible"); }
      if (old && !old.configurable) {
        if (given.configurable || ("enumerable" in given && given.enumerable !== old.enumerable)) {
          throw new TypeError("not configurable");
        }
        if (data !== ("value" in old) && (data || accessor)) { throw new TypeError("not configurable"); }
        if (data && !old.writable && (given.writable || ("value" in given && !same(given.value, old.value)))) {
          throw new TypeError("not writable");
        }
        if (accessor && (("get" in given && given.get !== old.get) || ("set" in given && given.set !== old.set))) {
          throw new TypeError("not configurable");
        }
      }
      function kept(field, otherwise) {
        full[field] = field in given ? given[field] : old && field in old ? old[field] : otherwise;
      }
      kept("enumerable", false);
      kept("configurable", false);
      if (accessor || (!data && old && !("value" in old))) {
        kept("get", undefined);
        kept("set", undefined);
        if (full.get === undefined) { delete full.get; }
        if (full.set === undefined) { delete full.set; }
      } else {
        kept("value", undefined);
        kept("writable", false);
      }
      if (old && old.configurable && isRaised(old, full)) { delete object[name]; }
      if (old && "value" in old && old.writable && !("value" in full)) { object[name] = undefined; }
      if (old && !old.configurable && !("value" in full)) { return; }
      if (old && !old.configurable && !old.writable) { return; }
      define(object, name, full);
    }
    put(Object, "defineProperty", function (object, name, given) {
      var text;
      if (!isObject(object)) { throw new TypeError("not an object"); }
      text = String(name);
      putOwn(object, text, descriptor(given));
      return object;
    });
    put(Object, "defineProperties", function (object, given) {
      var holder = objectOf(given), names, made;
      if (!isObject(object)) { throw new TypeError("not an object"); }
      names = Object.keys(holder);
      made = names.map(function (name) { return descriptor(holder[name]); });
      names.forEach(function (name, k) { putOwn(object, name, made[k]); });
      return object;
    });
    // 15.8.2.11 and 15.8.2.12: each argument is made a number, after a NaN too.
    ["max", "min"].forEach(function (name) {
      var given = Math[name], slice = Array.prototype.slice;
      put(Math, name, function (one, other) { return given.apply(Math, slice.call(arguments).map(Number)); });
    });
    // 15.11.4.3 and 15.11.4.4
    [Error, EvalError, RangeError, ReferenceError, SyntaxError, TypeError, URIError].forEach(function (maker) {
      put(maker.prototype, "message", "");
    });
    put(Error.prototype, "toString", function () {
      var name, message;
      if (!isObject(this)) { throw new TypeError("not an object"); }
      name = this.name;
      name = name === undefined ? "Error" : String(name);
      message = this.message;
      message = message === undefined ? "" : String(message);
      return name === "" ? message : message === "" ? name : name + ": " + message;
    });
    // 15.5.4.7, 15.5.4.8 and 15.5.4.13
    function foundAt(text, sought, at) { return substring.call(text, at, at + sought.length) === sought; }
    put(String.prototype, "indexOf", function (word, position) {
      var text = textOf(this), sought = String(word), at = within(integerOf(position), text.length);
      for (; at + sought.length <= text.length; at += 1) { if (foundAt(text, sought, at)) { return at; } }
      return -1;
    });
    put(String.prototype, "lastIndexOf", function (word, position) {
      var text = textOf(this), sought = String(word), number = +position;
      var at = within(number !== number ? Infinity : integerOf(number), text.length - sought.length);
      for (; at >= 0; at -= 1) {
        if (at + sought.length <= text.length && foundAt(text, sought, at)) { return at; }
      }
      return -1;
    });
    put(String.prototype, "slice", function (start, end) {
      var text = textOf(this), size = text.length, from = integerOf(start);
      var to = end === undefined ? size : integerOf(end);
      from = from < 0 ? Math.max(size + from, 0) : Math.min(from, size);
      to = to < 0 ? Math.max(size + to, 0) : Math.min(to, size);
      return from < to ? substring.call(text, from, to) : "";
    });
    // 15.4.4.14 and 15.4.4.15: of nothing the start is not made a number.
    ["indexOf", "lastIndexOf"].forEach(function (name) {
      var given = Array.prototype[name];
      put(Array.prototype, name, function (sought) {
        return objectOf(this).length >>> 0 === 0 ? -1 : given.apply(this, arguments);
      });
    });
    // 15.1.2.2: `0x` is passed over for radix 16 too.
    parseInt = function (text, radix) {
      var word = String(text).trim(), base = radix | 0, sign = "";
      if (word.charAt(0) === "-" || word.charAt(0) === "+") { sign = word.charAt(0); word = substring.call(word, 1); }
      if ((base === 0 || base === 16) && (word.charAt(1) === "x" || word.charAt(1) === "X") && word.charAt(0) === "0") {
        word = substring.call(word, 2);
        base = 16;
      }
      return "+-".indexOf(word.charAt(0)) >= 0 ? NaN : parse(sign + word, base);
    };
    // 15.4.4.21 and 15.4.4.22: mujs refuses an array of one element.
    function folding(list, step, words, from, by, size) {
      var k = from, found = words.length > 1, answer = words[1], left;
      if (typeof step !== "function") { throw new TypeError("no function"); }
      for (left = size; left > 0; left -= 1, k += by) {
        if (k in list) {
          answer = found ? step(answer, list[k], k, list) : list[k];
          found = true;
        }
      }
      if (!found) { throw new TypeError("empty"); }
      return answer;
    }
    put(Array.prototype, "reduce", function (step) {
      var list = objectOf(this), size = list.length >>> 0;
      return folding(list, step, arguments, 0, 1, size);
    });
    put(Array.prototype, "reduceRight", function (step) {
      var list = objectOf(this), size = list.length >>> 0;
      return folding(list, step, arguments, size - 1, -1, size);
    });
  })();
}
