function f() {
  "use strict";
  delete f;
}
