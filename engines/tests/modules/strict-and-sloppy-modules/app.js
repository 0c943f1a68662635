var f = Object.freeze({ a: 1 }); f.a = 2; delete f.a; console.log(f.a, require("./s.js"));
