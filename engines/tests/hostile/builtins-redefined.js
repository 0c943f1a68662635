
    Array.prototype.push = Array.prototype.map = Array.prototype.join = null;
    Function.prototype.call = Function.prototype.apply = null; Function.prototype.toString = function () { throw 1; };
    Object.prototype.hasOwnProperty = Object.getOwnPropertyDescriptor = Object.getPrototypeOf = null; Object.keys = null;
    String.prototype.charCodeAt = String.prototype.slice = null; Map.prototype.get = Map.prototype.set = null;
    WeakMap.prototype.get = null; JSON.stringify = null; RegExp.prototype.exec = RegExp.prototype.test = null;
    Reflect.apply = Reflect.construct = null; Array.isArray = function () { return true; };
    var o = { a: "x\u2028y" }; function F(a) { this.a = a; } print(new F(o.a).a + undefined, 0 / 0);
