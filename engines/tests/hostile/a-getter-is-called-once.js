
    var n = 0, o = { get x() { return ++n; } }; o.x; o.x += 1; o.x++; o.x.y; delete o.x; print(n);
    var k = 0, key = { toString: function () { k++; return "p"; } }, q = {}; q[key]; q[key] = 1; delete q[key]; print(k);
