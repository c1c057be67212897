// Runs the judge of web/judge.html in node, without a browser.
//
//     node web/judge_node.js check < TEXT              writes the row that `mdvsp check` writes, with its status
//     node web/judge_node.js peakcheck < TEXT          the same for `mdvsp peakcheck`
//     node web/judge_node.js files TIMETABLE PLAN ..   judges each two files as the page does, and writes as JSON what it shows
//     node web/judge_node.js serve                     reads texts, each behind a line `COMMAND BYTES`, and writes their rows
//
// Another program takes the judge by `require`: it gets the functions of the page's scripts.
"use strict";

const fs = require("fs");
const path = require("path");
const vm = require("vm");

const PAGE = path.join(__dirname, "judge.html");
const NAMES = ["judgeText", "judgeFiles", "sha256", "describe", "visible", "grouped"];

// Returns the functions of the scripts `judge` and `report` of the page.
function load() {
  const page = fs.readFileSync(PAGE, "utf8");
  const texts = ["judge", "report"].map((id) => {
    const found = new RegExp(`<script id="${id}">\\n"use strict";\\n([^]*?)</script>`).exec(page);
    if (!found) throw new Error(`web/judge.html has no script ${id}`);
    return found[1];
  });
  return vm.runInThisContext(`"use strict"; (() => {\n${texts.join("")}\nreturn { ${NAMES.join(", ")} };\n})()`);
}

const judge = load();
module.exports = judge;

function statusOf(row) {
  return { yes: 0, no: 1, refused: 3 }[row.split(",")[0]];
}

function check(command) {
  const { row } = judge.judgeText(new Uint8Array(fs.readFileSync(0)), command);
  process.stdout.write(row + "\n");
  process.exitCode = statusOf(row);
}

function files(names) {
  for (let at = 0; at < names.length; at += 2) {
    const result = judge.judgeFiles(...names.slice(at, at + 2).map((name) => new Uint8Array(fs.readFileSync(name))));
    process.stdout.write(JSON.stringify({ ...result, words: judge.describe(result) }) + "\n");
  }
}

// Reads exactly so many bytes from standard input, or fewer where it ends.
function read(count) {
  const bytes = Buffer.alloc(count);
  let done = 0;
  while (done < count) {
    const more = fs.readSync(0, bytes, done, count - done, null);
    if (more === 0) break;
    done += more;
  }
  return bytes.subarray(0, done);
}

function readLine() {
  let line = "";
  for (let byte = read(1); byte.length === 1 && byte[0] !== 10; byte = read(1)) line += String.fromCharCode(byte[0]);
  return line;
}

function serve() {
  for (let line = readLine(); line !== ""; line = readLine()) {
    const [command, length] = line.split(" ");
    const bytes = read(Number(length));
    fs.writeSync(1, judge.judgeText(new Uint8Array(bytes), command).row + "\n");
  }
}

if (require.main === module) {
  const [command, ...words] = process.argv.slice(2);
  if (command === "check" || command === "peakcheck") check(command);
  else if (command === "files" && words.length % 2 === 0) files(words);
  else if (command === "serve") serve();
  else process.exitCode = 2;
}
