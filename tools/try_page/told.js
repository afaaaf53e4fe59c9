"use strict";
// What the program tells of a configuration, and what a page must show of it.
const { spawnSync } = require("node:child_process");
const fs = require("node:fs");
const path = require("node:path");

const TOP = path.resolve(__dirname, "../..");
const NO_FEATURES = '{"features": []}\n';

/** A run of the program: its output, a character for each byte, and its status. */
function famlint(words) {
  const program = process.env.FAMLINT ?? path.join(TOP, "crates/famlint/out/famlint");
  const { stdout, status } = spawnSync(program, words, { maxBuffer: 1 << 28 });
  return { text: stdout.toString("latin1"), status };
}

const linesOf = (text) => text.split("\n").filter((line) => line !== "");
const withoutComments = (text) => text.replace(/\/\*[^]*?\*\/|\/\/[^\n]*/g, (comment) => comment.replace(/[^\n]/g, " "));
const isCode = (line) => line.trim() !== "" && !line.trim().startsWith("#");

/** The lines of code that a text of `project` lacks. */
function leftOut(file, projected) {
  const kept = projected.split("\n");
  return withoutComments(file).split("\n").flatMap((line, at) => (isCode(line) && kept[at].trim() === "" ? [at + 1] : []));
}

/** What `invariants` tells of the text of one variant: `LINE:COLUMN: LEAF`. */
function knownOf(family, projected) {
  const [model, file] = ["variant.json", "variant.c"].map((name) => path.join(path.dirname(family.paths[0]), name));
  fs.writeFileSync(model, NO_FEATURES);
  fs.writeFileSync(file, projected, "latin1");
  const lines = linesOf(famlint(["invariants", ...family.options, model, file]).text);
  return lines.flatMap((line) => /^(\d+:\d+: )if 1: (.*)$/.exec(line)?.slice(1).join("") ?? []);
}

/** What a configuration must show, or null where it is not valid. */
function wantedOf(family, values) {
  const settings = values.map(([name, value]) => `${name}=${value}`);
  const options = family.options.filter((option) => !option.startsWith("--regions"));
  const variant = famlint(["variant", ...options, ...family.paths, ...settings]);
  if (variant.status > 1) return null;
  const projected = famlint(["project", ...family.paths, ...settings]).text;
  return {
    lit: linesOf(variant.text).slice(0, -1).sort(),
    out: leftOut(fs.readFileSync(family.paths[1], "latin1"), projected),
    known: knownOf(family, projected).sort(),
  };
}

/** The numbers of those lines that have code. */
function linesWithCode(family, numbers) {
  const lines = withoutComments(fs.readFileSync(family.paths[1], "latin1")).split("\n");
  return numbers.filter((at) => isCode(lines[at - 1]));
}

module.exports = { famlint, linesWithCode, wantedOf };
