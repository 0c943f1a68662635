module.exports = function F(a) { if (a === 7) { new F(); } return a + undefined; };
