var pair = [1], empty = {},
    log = function () { };
pair[0];
log();
function Point() { }
new Point();
