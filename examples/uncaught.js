function Point(x, y) {
  this.x = x;
  this.y = y;
}
Point.prototype.toString = function () {
  return "(" + this.x + ", " + this.y + ")";
};
var points = { first: new Point(1, 2), last: new Point(3, 4) };
for (var name in points) {
  print(name, points[name]);
}
print(points.middle.x);
