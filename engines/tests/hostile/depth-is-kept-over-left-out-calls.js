
    "use strict"; var G = this; Number.prototype.f = function () { return 1; }; (0.5).f(); this.top = 1;
    function g() { G.inner = 1; } g();
