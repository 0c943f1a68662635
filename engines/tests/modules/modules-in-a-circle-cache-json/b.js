exports.got = require("./app.js").a;
