
    var y = 0.5, x = 1; print(typeof x + y === "number0.5", (typeof x, 0.5, "odd") === "odd"); print(typeof x === "nubmer", typeof x === "symbol");
