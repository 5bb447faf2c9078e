// What acorn says of a text, and what the program says of files, as the comparing scripts need it.
"use strict";

const { spawnSync } = require("child_process");
const fs = require("fs");
const path = require("path");
const acorn = require("./debian.js").acorn();

const PROGRAM = path.join(__dirname, "../crates/codemod/out/codemod");
const SCRIPT = path.join(__dirname, "print.js");
// How acorn words what its grammar does not read.
const GRAMMAR = /^(Unexpected|Unterminated|Expect|Invalid (number|Unicode escape)|Identifier directly after number|Bad character escape)/;

exports.acorn = acorn;
exports.PROGRAM = PROGRAM;
exports.isBuilt = () => fs.existsSync(PROGRAM);

// What acorn reads and the profile leaves out: `let`, `await` and `yield` as identifiers, functions as the
// bodies of `if` or of labels, texts as the names of exports, and HTML-like comments.
const OUTSIDE = ["let", "await", "yield"];

function isOutside(node) {
  if (node === null || typeof node !== "object") return false;
  if (node.type === "Identifier" && OUTSIDE.includes(node.name)) return true;
  if (node.type === "IfStatement" && [node.consequent, node.alternate].some((body) => body?.type === "FunctionDeclaration")) return true;
  if (node.type === "LabeledStatement" && node.body.type === "FunctionDeclaration") return true;
  if ([node.local, node.exported, node.imported].some((name) => name?.type === "Literal")) return true;
  return Object.values(node).some(isOutside);
}

// "reads", "outside", or acorn's message.
function readBy(text, sourceType) {
  let html = false;
  const onComment = (block, comment, start) => {
    html ||= !/^(\/[/*]|#!)/.test(text.slice(start));
  };
  const options = { ecmaVersion: 2022, sourceType, allowHashBang: true, allowReturnOutsideFunction: true, onComment };
  try {
    const tree = acorn.parse(text, options);
    return html || isOutside(tree) ? "outside" : "reads";
  } catch (error) {
    if (!(error instanceof SyntaxError)) throw error;
    return error.message;
  }
}

// What acorn says of a text, at best, and the row that the program must give: null where that is free,
// since the profile leaves the text out, or acorn refuses it for an early error that is no matter of the
// grammar.
exports.wanted = (text) => {
  const answers = [readBy(text, "module"), readBy(text, "script")];
  if (answers.includes("reads")) return { says: "reads", row: "unmodified" };
  if (answers.includes("outside")) return { says: "outside", row: null };
  const told = answers.filter((answer) => !answer.startsWith("'import' and 'export'"));
  const row = told.every((answer) => GRAMMAR.test(answer)) ? "syntax" : null;
  return { says: told.join(" / "), row };
};

// The program's rows of these files by their names.
exports.rowsOf = (names) => {
  const run = spawnSync(PROGRAM, ["-t", SCRIPT, "-d", ...names], { encoding: "utf8", maxBuffer: 1 << 28 });
  const rows = new Map();
  for (const line of run.stdout.split("\n")) {
    const row = /^(ok|unmodified|skipped|error) (.*?)(: .*)?$/.exec(line);
    if (row) rows.set(row[2], row[1] + (row[3] ?? ""));
  }
  return rows;
};

exports.isAsWanted = (row, found) => (row === "syntax" ? /^error: syntax /.test(found) : found === row);
