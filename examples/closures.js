function counter(from) {
  return function () { return from++; };
}
var next = counter(10);
print(next(), next(), next());
