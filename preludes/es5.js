// What jlint leaves out of edition 5.1 and a script can add, in whole numbers: `sort` by a comparator, `replace` of a
// string, `JSON`, `parseFloat`, `toFixed`, `localeCompare`, and functions of `Math` where their results are whole.
// It may be strict code or not. Where a result would be no whole number, the run ends by the fault NumberOutside.

var parseFloat = function (text) {
  var shown = String(text).trim(), end = 0, digits = "0123456789";
  if (shown.charAt(0) === "-" || shown.charAt(0) === "+") {
    end = 1;
  }
  while (end < shown.length && digits.indexOf(shown.charAt(end)) >= 0) {
    end += 1;
  }
  if (shown.charAt(end) === "." || shown.charAt(end).toLowerCase() === "e") {
    // A fraction or an exponent: Number says whether its value is whole.
    return Number(shown);
  }
  return parseInt(shown.slice(0, end), 10);
};

var JSON = (function () {
  var escapes = { "\b": "\\b", "\t": "\\t", "\n": "\\n", "\f": "\\f", "\r": "\\r", "\"": "\\\"", "\\": "\\\\" };
  var meanings = { b: "\b", t: "\t", n: "\n", f: "\f", r: "\r", "\"": "\"", "\\": "\\", "/": "/" };

  function has(object, key) {
    return Object.prototype.hasOwnProperty.call(object, key);
  }

  function classOf(value) {
    return Object.prototype.toString.call(value).slice(8, -1);
  }

  function quote(text) {
    var quoted = "\"", index, unit;
    for (index = 0; index < text.length; index += 1) {
      unit = text.charAt(index);
      if (has(escapes, unit)) {
        quoted += escapes[unit];
      } else if (unit < " ") {
        quoted += "\\u" + ("000" + unit.charCodeAt(0).toString(16)).slice(-4);
      } else {
        quoted += unit;
      }
    }
    return quoted + "\"";
  }

  function ownKeys(object) {
    return Object.keys(object);
  }

  // 15.12.3
  function stringify(value, replacer, space) {
    var replace = typeof replacer === "function" ? replacer : null;
    var names = Array.isArray(replacer) ? replacer.map(String) : null;
    var gap = "", open = [];
    if (typeof space === "number") {
      gap = "          ".slice(0, Math.max(0, Math.min(10, space)));
    } else if (typeof space === "string") {
      gap = space.slice(0, 10);
    }

    function list(parts, before, after, indent) {
      if (parts.length === 0) {
        return before + after;
      }
      if (gap === "") {
        return before + parts.join(",") + after;
      }
      return before + "\n" + indent + gap + parts.join(",\n" + indent + gap) + "\n" + indent + after;
    }

    function write(holder, key, indent) {
      var item = holder[key], parts = [], index, keys, written;
      if (item !== null && typeof item === "object" && typeof item.toJSON === "function") {
        item = item.toJSON(key);
      }
      if (replace) {
        item = replace.call(holder, key, item);
      }
      if (classOf(item) === "Number") {
        item = Number(item);
      } else if (classOf(item) === "String") {
        item = String(item);
      } else if (classOf(item) === "Boolean") {
        item = item.valueOf();
      }
      if (item === null || item === true || item === false) {
        return String(item);
      }
      if (typeof item === "string") {
        return quote(item);
      }
      if (typeof item === "number") {
        return item === item ? String(item) : "null";
      }
      if (typeof item !== "object") {
        return undefined;
      }
      if (open.indexOf(item) >= 0) {
        throw new TypeError("cyclic object value");
      }
      open.push(item);
      if (Array.isArray(item)) {
        for (index = 0; index < item.length; index += 1) {
          written = write(item, String(index), indent + gap);
          parts.push(written === undefined ? "null" : written);
        }
        open.pop();
        return list(parts, "[", "]", indent);
      }
      keys = names || ownKeys(item);
      for (index = 0; index < keys.length; index += 1) {
        written = write(item, keys[index], indent + gap);
        if (written !== undefined) {
          parts.push(quote(keys[index]) + (gap === "" ? ":" : ": ") + written);
        }
      }
      open.pop();
      return list(parts, "{", "}", indent);
    }

    return write({ "": value }, "", "");
  }

  // 15.12.2
  function parse(given, reviver) {
    var text = String(given), at = 0;

    function fail() {
      throw new SyntaxError("bad JSON at " + at);
    }

    function skip() {
      while (at < text.length && " \t\n\r".indexOf(text.charAt(at)) >= 0) {
        at += 1;
      }
    }

    function take(word) {
      if (text.slice(at, at + word.length) !== word) {
        fail();
      }
      at += word.length;
    }

    function readUnit() {
      var digits = text.slice(at, at + 4), index;
      for (index = 0; index < 4; index += 1) {
        if (digits.length < 4 || "0123456789abcdefABCDEF".indexOf(digits.charAt(index)) < 0) {
          fail();
        }
      }
      at += 4;
      return String.fromCharCode(parseInt(digits, 16));
    }

    function readString() {
      var made = "", unit;
      take("\"");
      while (text.charAt(at) !== "\"") {
        unit = text.charAt(at);
        if (unit === "" || unit < " ") {
          fail();
        }
        at += 1;
        if (unit === "\\") {
          unit = text.charAt(at);
          at += 1;
          if (unit === "u") {
            unit = readUnit();
          } else if (has(meanings, unit)) {
            unit = meanings[unit];
          } else {
            fail();
          }
        }
        made += unit;
      }
      at += 1;
      return made;
    }

    function readDigits() {
      var start = at;
      while (at < text.length && "0123456789".indexOf(text.charAt(at)) >= 0) {
        at += 1;
      }
      if (at === start) {
        fail();
      }
      return text.slice(start, at);
    }

    function readNumber() {
      var start = at, whole;
      if (text.charAt(at) === "-") {
        at += 1;
      }
      whole = readDigits();
      if (whole.length > 1 && whole.charAt(0) === "0") {
        fail();
      }
      if (text.charAt(at) === ".") {
        at += 1;
        readDigits();
      }
      if (text.charAt(at).toLowerCase() === "e") {
        at += 1;
        if (text.charAt(at) === "+" || text.charAt(at) === "-") {
          at += 1;
        }
        readDigits();
      }
      return Number(text.slice(start, at));
    }

    function readArray() {
      var made = [];
      take("[");
      skip();
      if (text.charAt(at) === "]") {
        at += 1;
        return made;
      }
      while (true) {
        made.push(readValue());
        if (text.charAt(at) === "]") {
          at += 1;
          return made;
        }
        take(",");
      }
    }

    function readObject() {
      var made = {}, key;
      take("{");
      skip();
      if (text.charAt(at) === "}") {
        at += 1;
        return made;
      }
      while (true) {
        skip();
        key = readString();
        skip();
        take(":");
        Object.defineProperty(made, key, { value: readValue(), writable: true, enumerable: true, configurable: true });
        if (text.charAt(at) === "}") {
          at += 1;
          return made;
        }
        take(",");
      }
    }

    function readValue() {
      var made, first;
      skip();
      first = text.charAt(at);
      if (first === "\"") {
        made = readString();
      } else if (first === "{") {
        made = readObject();
      } else if (first === "[") {
        made = readArray();
      } else if (first === "t") {
        take("true");
        made = true;
      } else if (first === "f") {
        take("false");
        made = false;
      } else if (first === "n") {
        take("null");
        made = null;
      } else {
        made = readNumber();
      }
      skip();
      return made;
    }

    function revive(holder, key) {
      var item = holder[key];
      if (item !== null && typeof item === "object") {
        Object.keys(item).forEach(function (inner) {
          var made = revive(item, inner);
          if (made === undefined) {
            delete item[inner];
          } else {
            item[inner] = made;
          }
        });
      }
      return reviver.call(holder, key, item);
    }

    var made = readValue();
    if (at < text.length) {
      fail();
    }
    return typeof reviver === "function" ? revive({ "": made }, "") : made;
  }

  return { parse: parse, stringify: stringify };
})();

(function () {
  var sortByText = Array.prototype.sort;

  function define(object, name, value) {
    Object.defineProperty(object, name, { value: value, writable: true, enumerable: false, configurable: true });
  }

  // Ends the run by the fault NumberOutside.
  function noWholeNumber() {
    return 1 / 2;
  }

  function half(number) {
    return (number - number % 2) / 2;
  }

  function merge(left, right, isAfter) {
    var merged = [], first = 0, second = 0;
    while (first < left.length && second < right.length) {
      if (isAfter(left[first], right[second])) {
        merged.push(right[second]);
        second += 1;
      } else {
        merged.push(left[first]);
        first += 1;
      }
    }
    return merged.concat(left.slice(first), right.slice(second));
  }

  function sorted(items, isAfter) {
    var middle = half(items.length);
    return items.length < 2 ? items
      : merge(sorted(items.slice(0, middle), isAfter), sorted(items.slice(middle), isAfter), isAfter);
  }

  // 15.4.4.11: undefined comes after all other elements, and holes after these.
  define(Array.prototype, "sort", function sort(compare) {
    var length = this.length, items = [], undefinedItems = 0, index;
    if (compare === undefined) {
      return sortByText.call(this);
    }
    if (typeof compare !== "function") {
      throw new TypeError("the comparator is no function");
    }
    for (index = 0; index < length; index += 1) {
      if (index in this) {
        if (this[index] === undefined) {
          undefinedItems += 1;
        } else {
          items.push(this[index]);
        }
      }
    }
    items = sorted(items, function (left, right) { return Number(compare.call(undefined, left, right)) > 0; });
    for (index = 0; index < length; index += 1) {
      if (index < items.length) {
        this[index] = items[index];
      } else if (index < items.length + undefinedItems) {
        this[index] = undefined;
      } else {
        delete this[index];
      }
    }
    return this;
  });

  // 15.5.4.11, table 22, of a string that is searched: there are no groups.
  function expand(pattern, text, found, at) {
    var made = "", index = 0, next;
    while (index < pattern.length) {
      next = pattern.charAt(index) === "$" ? pattern.charAt(index + 1) : "";
      index += next !== "" && "$&`'".indexOf(next) >= 0 ? 2 : 1;
      if (next === "$") {
        made += "$";
      } else if (next === "&") {
        made += found;
      } else if (next === "`") {
        made += text.slice(0, at);
      } else if (next === "'") {
        made += text.slice(at + found.length);
      } else {
        made += pattern.charAt(index - 1);
      }
    }
    return made;
  }

  define(String.prototype, "replace", function replace(searched, replacement) {
    var text = String(this), found = String(searched), at = text.indexOf(found), made;
    if (at < 0) {
      return text;
    }
    if (typeof replacement === "function") {
      made = String(replacement.call(undefined, found, at, text));
    } else {
      made = expand(String(replacement), text, found, at);
    }
    return text.slice(0, at) + made + text.slice(at + found.length);
  });

  // By code units, which is one of the orders that 15.5.4.9 allows.
  define(String.prototype, "localeCompare", function localeCompare(that) {
    var left = String(this), right = String(that);
    return left < right ? -1 : left > right ? 1 : 0;
  });

  define(Number.prototype, "toFixed", function toFixed(digits) {
    var zeros = "", shown = String(Number(this)), count = digits === undefined ? 0 : Number(digits);
    if (count < 0 || count > 20) {
      throw new RangeError("bad number of digits");
    }
    while (shown !== "NaN" && zeros.length < count) {
      zeros += "0";
    }
    return zeros === "" ? shown : shown + "." + zeros;
  });

  define(Math, "sqrt", function sqrt(x) {
    var square = Number(x), low = 0, high = 94906265, middle;
    if (square !== square || square < 0) {
      return NaN;
    }
    while (low < high) {
      middle = half(low + high + 1);
      if (middle * middle <= square) {
        low = middle;
      } else {
        high = middle - 1;
      }
    }
    return low * low === square ? low : noWholeNumber();
  });

  // Each is whole at one number alone.
  function defineAt(name, argument, value) {
    define(Math, name, function (x) {
      var number = Number(x);
      return number !== number ? NaN : number === argument ? value : noWholeNumber();
    });
  }

  [
    ["sin", 0, 0], ["cos", 0, 1], ["tan", 0, 0], ["asin", 0, 0],
    ["acos", 1, 0], ["atan", 0, 0], ["exp", 0, 1], ["log", 1, 0]
  ].forEach(function (row) { defineAt(row[0], row[1], row[2]); });

  // 15.8.2.14 asks for a number from 0 to 1, without 1, and leaves open which: 0 is the only whole one.
  define(Math, "random", function random() { return 0; });
})();
