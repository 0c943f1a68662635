
    var s = Symbol("k"), o = {}; o[s] = 1; print(o[s], typeof s, 1 / 3 > 0, -0 === 0, 1e300 * 1e300); print(typeof o.x === "string", Object(s) == s);
    var b = Object(BigInt(1)); b = BigInt(3); print(typeof b, b * b === BigInt(9), typeof (b + "x")); print(2 / 4 + undefined, 1.5 == "1.5");
