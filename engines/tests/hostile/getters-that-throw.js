
    var o = { get a() { throw new TypeError("mine"); }, set a(v) { throw "set " + v; } };
    try { o.a; } catch (e) { print(e.message); } try { o.a = 1; } catch (e) { print(e); } try { o.a += 1; } catch (e) { print(e.message); }
    try { o.a++; } catch (e) { print(e.message); } try { o.a(); } catch (e) { print(e.message); } print("a" in o, delete o.a, o.a);
