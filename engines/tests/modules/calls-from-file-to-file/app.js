var F = require("./f.js"); F(1); new F(1, 2); console.log(F.call === Function.prototype.call, [1].map(F));
