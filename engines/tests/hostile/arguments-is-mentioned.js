function f() { return arguments.length; } function g() { return { arguments: 1 }.arguments; } print(f(1), g(1));
