
    var n = 0; print([3, 1, 2].sort(function (a, b) { n++; return a - b; }).join(), n > 0, "aXb".replace(/X/, function (m) { return m + m; }));
    print(JSON.stringify({ toJSON: function () { return [1.5]; } }), [1, 2].map(function (x) { return x * 2; }).join());
    print(Array.from({ length: 2 }, function (v, i) { return i; }).join(), new Function("return 7")());
