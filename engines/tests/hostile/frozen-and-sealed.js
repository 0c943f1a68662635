
    var o = Object.freeze({ a: 1 }); o.a = 2; o.b = 3; print(o.a, o.b, delete o.a);
    (function () { "use strict"; try { o.a = 2; } catch (e) { print(e.name); } try { delete o.a; } catch (e) { print(e.name); } try { (7).x = 1; } catch (e) { print(e.name); } }());
    (5).y = 1; "s".z = 2; print((5).y);
