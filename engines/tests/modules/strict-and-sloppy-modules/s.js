"use strict";
try { Object.freeze([1])[0] = 2; } catch (e) { module.exports = e.name; }
