// Runs scripts by node, each in a realm of its own: node node.js PRELUDE SCRIPT.. . For each it writes a line of JSON
// with what the script printed, and how it ended.
var fs = require("fs"), vm = require("vm");
var prelude = fs.readFileSync(process.argv[2], "utf8");
process.argv.slice(3).forEach(function (name) {
  var lines = [], end = "normal", realm = vm.createContext({});
  vm.runInContext(prelude, realm);
  vm.runInContext("String", realm);
  var text = vm.runInContext("(function (values) { return Array.prototype.map.call(values, String); })", realm);
  realm.print = function () { lines.push(text(arguments).join(" ")); };
  try {
    vm.runInContext(fs.readFileSync(name, "utf8"), realm, { timeout: 3000 });
  } catch (e) {
    end = e && e.code === "ERR_SCRIPT_EXECUTION_TIMEOUT" ? "spent" : "thrown";
  }
  fs.writeSync(1, JSON.stringify({ name: name, lines: lines, end: end }) + "\n");
});
