var r = /x/g; 0 / 0; // jlint-off nan-made
// jlint-off-next nan-made
var q = 0.5, n = 0 % 0;
console.log(0 / 0);
