// file: assert.js
function assert(held, message) {
  if (held !== true) { $ERROR(message === undefined ? "not true: " + assert.text(held) : message); }
}
assert.same = function (a, b) { return a === b || (a !== a && b !== b); };
assert._isSameValue = assert.same;
assert.text = function (value) {
  try { return String(value); } catch (e) { return Object.prototype.toString.call(value); }
};
assert._toString = assert.text;
assert.sameValue = function (found, due, message) {
  if (!assert.same(found, due)) {
    $ERROR((message === undefined ? "" : message + ": ") + assert.text(found) + " where " + assert.text(due) + " is due");
  }
};
assert.notSameValue = function (found, other, message) {
  if (assert.same(found, other)) {
    $ERROR((message === undefined ? "" : message + ": ") + assert.text(found) + " is not due");
  }
};
assert.throws = function (kind, attempt, message) {
  var before = message === undefined ? "" : message + ": ";
  try {
    attempt();
  } catch (thrown) {
    if (typeof thrown !== "object" || thrown === null) { $ERROR(before + "what is thrown is no object"); }
    if (thrown.constructor !== kind) { $ERROR(before + "another error is thrown: " + assert.text(thrown)); }
    return;
  }
  $ERROR(before + "nothing is thrown");
};

// file: sta.js
function Test262Error(message) { this.message = message || ""; }
Test262Error.prototype.toString = function () { return "Test262Error: " + this.message; };
function $ERROR(message) { throw new Test262Error(message); }
function $FAIL(message) { $ERROR(message); }
function $DONOTEVALUATE() { throw "a statement was evaluated that should not be"; }
function runTestCase(testcase) {
  if (testcase() !== true) { $ERROR("the test case did not give true"); }
}
function fnExists() {
  var i;
  for (i = 0; i < arguments.length; i++) {
    if (typeof arguments[i] !== "function") { return false; }
  }
  return true;
}
function fnSupportsStrict() { return true; }
function reportCompare(due, found) { if (found !== due) { $ERROR("something else is due"); } }
function $DONE(failure) { if (failure) { $ERROR(failure); } }

// file: compareArray.js
function compareArray(a, b) {
  var i;
  if (a.length !== b.length) { return false; }
  for (i = 0; i < a.length; i++) {
    if (!assert.same(a[i], b[i])) { return false; }
  }
  return true;
}
compareArray.isSameValue = assert.same;
compareArray.format = function (array) { return "[" + array.map(String).join(", ") + "]"; };
assert.compareArray = function (found, due, message) {
  assert(compareArray(found, due), message);
};

// file: arrayContains.js
function arrayContains(array, parts) {
  return parts.every(function (part) { return array.indexOf(part) !== -1; });
}

// file: fnGlobalObject.js
var fnGlobalObject = (function (object) { return function () { return object; }; })(this);

// file: isConstructor.js
function isConstructor(f) {
  try { new f(); } catch (e) { return !(e instanceof TypeError); }
  return true;
}

// file: propertyHelper.js
function isSameValue(a, b) { return assert.same(a, b); }
function isConfigurable(object, name) {
  try { delete object[name]; } catch (e) {
    if (!(e instanceof TypeError)) { $ERROR("no TypeError but " + e); }
  }
  return !Object.prototype.hasOwnProperty.call(object, name);
}
function isEnumerable(object, name) {
  var found = false, key;
  for (key in object) {
    if (key === name) { found = true; }
  }
  return found && Object.prototype.hasOwnProperty.call(object, name) &&
    Object.prototype.propertyIsEnumerable.call(object, name);
}
function isWritable(object, name, shown, value) {
  var unlikely = Array.isArray(object) && name === "length" ? 4294967295 : "unlikelyValue";
  var put = value || unlikely, had = Object.prototype.hasOwnProperty.call(object, name), old = object[name], done;
  try { object[name] = put; } catch (e) {
    if (!(e instanceof TypeError)) { $ERROR("no TypeError but " + e); }
  }
  done = isSameValue(object[shown || name], put);
  if (done) {
    if (had) { object[name] = old; } else { delete object[name]; }
  }
  return done;
}
function verifyAttribute(object, name, attribute, due, found) {
  if (attribute !== undefined && !!Object.getOwnPropertyDescriptor(object, name)[attribute] !== due) {
    $ERROR("the descriptor of " + name + " has not " + attribute + ": " + due);
  }
  if (found(object, name) !== due) { $ERROR(name + " behaves as if it had not " + attribute + ": " + due); }
}
function verifyProperty(object, name, descriptor, options) {
  var before = Object.getOwnPropertyDescriptor(object, name);
  var has = function (key) { return Object.prototype.hasOwnProperty.call(descriptor, key); };
  if (descriptor === undefined) {
    assert.sameValue(before, undefined, name);
    return true;
  }
  assert(Object.prototype.hasOwnProperty.call(object, name), "no own property " + name);
  if (has("value")) { assert.sameValue(before.value, descriptor.value, name); }
  if (has("enumerable")) { verifyAttribute(object, name, "enumerable", descriptor.enumerable, isEnumerable); }
  if (has("writable")) { verifyAttribute(object, name, "writable", descriptor.writable, isWritable); }
  if (has("configurable")) { verifyAttribute(object, name, "configurable", descriptor.configurable, isConfigurable); }
  if (options && options.restore) { Object.defineProperty(object, name, before); }
  return true;
}
function verifyEqualTo(object, name, value) { assert.sameValue(object[name], value, name); }
function verifyWritable(object, name, shown, value) {
  verifyAttribute(object, name, shown ? undefined : "writable", true, function () {
    return isWritable(object, name, shown, value);
  });
}
function verifyNotWritable(object, name, shown) {
  verifyAttribute(object, name, shown ? undefined : "writable", false, function () {
    return isWritable(object, name, shown);
  });
}
function verifyEnumerable(object, name) { verifyAttribute(object, name, "enumerable", true, isEnumerable); }
function verifyNotEnumerable(object, name) { verifyAttribute(object, name, "enumerable", false, isEnumerable); }
function verifyConfigurable(object, name) { verifyAttribute(object, name, "configurable", true, isConfigurable); }
function verifyNotConfigurable(object, name) { verifyAttribute(object, name, "configurable", false, isConfigurable); }
function dataPropertyAttributesAreCorrect(object, name, value, writable, enumerable, configurable) {
  var found = Object.getOwnPropertyDescriptor(object, name);
  return assert.same(found.value, value) && found.writable === writable && found.enumerable === enumerable &&
    found.configurable === configurable;
}
function accessorPropertyAttributesAreCorrect(object, name, get, set, setAs, enumerable, configurable) {
  var found = Object.getOwnPropertyDescriptor(object, name);
  return found.get === get && found.set === set && found.enumerable === enumerable &&
    found.configurable === configurable;
}

// file: decimalToHexString.js
function decimalToHexString(number) {
  var digits = "0123456789ABCDEF", text = "", left = number, i;
  for (i = 0; i < 4; i++) {
    text = digits.charAt(left % 16) + text;
    left = (left - left % 16) / 16;
  }
  return text;
}
