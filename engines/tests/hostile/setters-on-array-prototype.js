
    Object.defineProperty(Array.prototype, "0", { set: function () { print("set"); }, get: function () { return "got"; }, configurable: true });
    function f() { return arguments.length; } print(f(1, 2, 3)); var a = []; a[0] = 1; print(a[0], a.length); [].push(1);
