// Reads the file of the first word once with acorn.
"use strict";

const fs = require("fs");
const acorn = require("./debian.js").acorn();

const options = { ecmaVersion: 2022, sourceType: "module", allowHashBang: true, allowReturnOutsideFunction: true };
acorn.parse(fs.readFileSync(process.argv[2], "utf8"), options);
