// What the scripts take from Debian: its copy of acorn, and the JavaScript files of its packages.
"use strict";

const { execFileSync } = require("child_process");
const fs = require("fs");

// acorn, or a message and the end where its package is missing.
exports.acorn = () => {
  module.paths.push("/usr/share/nodejs");
  try {
    return require("acorn");
  } catch {
    console.log("skipped: there is no acorn (apt-get install node-acorn)");
    process.exit(0);
  }
};

const isScript = (name) => /\.[cm]?js$/.test(name) && fs.lstatSync(name).isFile();

// The JavaScript files of an installed package in order, or null where it is not installed.
exports.files = (name) => {
  try {
    const list = execFileSync("dpkg", ["-L", name], { encoding: "utf8", stdio: ["ignore", "pipe", "ignore"] });
    return list.split("\n").filter(isScript).sort();
  } catch {
    return null;
  }
};
