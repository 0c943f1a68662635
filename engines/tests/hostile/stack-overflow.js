function f(n) { return f(n + 1); } try { f(0); } catch (e) { print(e instanceof RangeError); } function g() { this.q = 1; } g(); this.z = 1;
