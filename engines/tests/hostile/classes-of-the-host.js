
    var C = new Function("B", "return class extends B { constructor() { super(1); } }")(function B(x) { this.x = x; }); print(new C().x);
    try { C(); } catch (e) { print(e.name); } var a = new Function("return () => 1")(); try { new a(); } catch (e) { print(e.name); }
