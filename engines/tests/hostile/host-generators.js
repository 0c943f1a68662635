
    var it = (new Function("f", "return (function* () { yield f(1); yield f(2); })();"))(function (x) { return x + 1; }); print(it.next().value, it.next().value);
