function f() { }
var g = function () {
  function h() { }
};
