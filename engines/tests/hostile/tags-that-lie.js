
    var o = {}; o[Symbol.toStringTag] = "Boolean"; if (o) { print(Object.prototype.toString.call(o)); } var t = {}; Object.defineProperty(t, Symbol.toStringTag, { get: function () { print("seen"); } });
    t.x = 1; if (new Boolean(false)) { print(1); }
