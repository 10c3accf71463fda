'use strict';
function run(a) { eval(a + 'x'); }
function helper(b) { eval(b); }
module.exports = run;
