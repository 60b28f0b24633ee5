'use strict';
// The same by the package in npm/, which needs no compiler.
//
// usage: node package.js [script | module | program | auto] < FILE

require('./tell.js')(require('../../npm').parse);
