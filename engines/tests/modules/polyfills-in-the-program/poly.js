Array.prototype.push = function () { for (var i = 0; i < arguments.length; i++) { this[this.length] = arguments[i]; } return this.length; };
String.prototype.split = (function (old) { return function (s) { return old.call(this, s); }; }(String.prototype.split)); RegExp.prototype.exec = (function (old) { return function (s) { return old.call(this, s); }; }(RegExp.prototype.exec));
