// shapes.js
var shapes = [];
function Shape(name) {
  this.name = name;
}
Shape.prototype.area = function () { return 0; };
Shape.prototype.toString = function () {
  return this.name + " of area " + this.area();
};
function Rect(w, h) {
  Shape.call(this, "rect");
  this.w = w;
  this.h = h;
}
Rect.prototype = Object.create(Shape.prototype);
Rect.prototype.constructor = Rect;
Rect.prototype.area = function () { return this.w * this.h; };
function Square(side) {
  Rect.call(this, side, side);
  this.name = "square";
}
Square.prototype = Object.create(Rect.prototype);
Square.prototype.constructor = Square;

function counter(start) {
  var n = start;
  return function () { n += 1; return n; };
}
var next = counter(10);

shapes.push(new Shape("plain"));
shapes.push(new Rect(3, 4));
shapes.push(new Square(5));
shapes.push(new Rect(6));

shapes.forEach(function (s, i) {
  print(next() + ": " + i + " " + s);
});

var total = 0, k;
for (k in shapes) {
  total += shapes[k].area();
}
print("total " + total);

var size = parseInt("42 px");
if (size == "42") {
  print("size " + size, next(1));
}
var unit;
print("unit " + unit);

function last(list) {
  return list[list.length].area();
}
print(last(shapes));
