console.log(require("./b.js"));
