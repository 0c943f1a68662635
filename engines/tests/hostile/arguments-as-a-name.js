function f(arguments) { return arguments; } function g() { var arguments = 3; return arguments; } function h() { return f.length; function arguments() { } } print(f(1), g(), h(9));
