require("./poly.js"); console.log([1].push(2), "a-b".split("-").join(), require("./late.js"));
