
    var log = []; var h = {}; ["get", "set", "has", "getPrototypeOf", "getOwnPropertyDescriptor", "ownKeys", "deleteProperty"].forEach(function (t) {
      h[t] = function () { log.push(t); return Reflect[t].apply(null, arguments); }; });
    var p = new Proxy({ a: 1 }, h); p.a; p.b = 2; delete p.b; var c = Object.create(p); c.a; c.q = 3; typeof p; if (p) { print(log.join()); }
    var fp = new Proxy(function () { return 7; }, {}); print(fp(), typeof new fp()); var r = Proxy.revocable([], {}); r.revoke(); var x = [r.proxy]; print(typeof x[0]);
