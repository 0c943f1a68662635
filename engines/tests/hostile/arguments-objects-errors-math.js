function f() { return arguments + ""; } print(f()); print(new TypeError("x") + "", Math + "", [] + "", null + "");
