#!/usr/bin/env node
"use strict";
module.exports = (function () { return this; }()) === undefined;
if (0 / 0) { } return;
console.log("never");
