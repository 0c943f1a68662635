exports.a = 1; var b = require("./b.js"); console.log(b.got, require("./b.js") === b, require("./c.json").x, Object.keys(require.cache).length);
