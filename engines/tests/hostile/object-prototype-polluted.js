
    Object.prototype.value = 1; Object.prototype.get = function () { }; Object.prototype.writable = 0; Object.prototype[0] = 7;
    Object.prototype.construct = 5; var a = []; a[1] = 2; print(a[0], a.length, { x: 1 }.x);
    function F() { } print(new F() instanceof F);
