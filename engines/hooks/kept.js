'use strict';
// What a program may redefine, kept before it runs. The other files of this folder use these and no global.

module.exports = function keepBuiltins() {
  const { setPrototypeOf } = Reflect;

  // Maps with methods of their own, which no program can reach.
  const mapMethods = {
    __proto__: null,
    get: Map.prototype.get,
    set: Map.prototype.set,
    has: Map.prototype.has,
    forEach: Map.prototype.forEach
  };
  const weakMapMethods = { __proto__: null, get: WeakMap.prototype.get, set: WeakMap.prototype.set };
  const PlainMap = Map;
  const PlainWeakMap = WeakMap;

  return {
    __proto__: null,
    apply: Reflect.apply,
    construct: Reflect.construct,
    getPrototypeOf: Reflect.getPrototypeOf,
    descriptorOf: Reflect.getOwnPropertyDescriptor,
    ownKeys: Reflect.ownKeys,
    defineProperty: Reflect.defineProperty,
    hasOwnProperty: Object.prototype.hasOwnProperty,
    objectToString: Object.prototype.toString,
    functionToString: Function.prototype.toString,
    exec: RegExp.prototype.exec,
    charCodeAt: String.prototype.charCodeAt,
    slice: String.prototype.slice,
    booleanValueOf: Boolean.prototype.valueOf,
    numberValueOf: Number.prototype.valueOf,
    stringValueOf: String.prototype.valueOf,
    isArray: Array.isArray,
    toObject: Object,
    toJson: JSON.stringify,
    is: Object.is,
    TypeError,
    Uint8Array,
    Proxy,
    globalObject: globalThis,
    newMap() {
      const map = new PlainMap();
      setPrototypeOf(map, mapMethods);
      return map;
    },
    newWeakMap() {
      const map = new PlainWeakMap();
      setPrototypeOf(map, weakMapMethods);
      return map;
    }
  };
};
