var lines = ["pear,3,2", "fig,4"];
var seen = {}, total = 0, i, field;
for (i = 0; i < lines.length; i++) {
  field = lines[i].split(",");
  total += field[1] * field[2];
  seen[field[3]] = true;
}
print("total " + total);
