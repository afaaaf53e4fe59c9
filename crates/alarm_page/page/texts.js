"use strict";
// The texts of the page: read from its elements, and taken apart line by line.

// HTML reads `&#x80;` to `&#x9f;` as characters of windows-1252, and `&#x00;` as U+FFFD (HTML Standard, "Numeric character reference end
// state"). Each of these characters stands for one byte.
const CHARACTERS = new Map([
  [0xfffd, 0x00], [0x20ac, 0x80], [0x201a, 0x82], [0x0192, 0x83], [0x201e, 0x84], [0x2026, 0x85], [0x2020, 0x86], [0x2021, 0x87],
  [0x02c6, 0x88], [0x2030, 0x89], [0x0160, 0x8a], [0x2039, 0x8b], [0x0152, 0x8c], [0x017d, 0x8e], [0x2018, 0x91], [0x2019, 0x92],
  [0x201c, 0x93], [0x201d, 0x94], [0x2022, 0x95], [0x2013, 0x96], [0x2014, 0x97], [0x02dc, 0x98], [0x2122, 0x99], [0x0161, 0x9a],
  [0x203a, 0x9b], [0x0153, 0x9c], [0x017e, 0x9e], [0x0178, 0x9f],
]);

/** The bytes that a text of the page stands for. */
function bytesOf(text) {
  const bytes = new Uint8Array(text.length);
  for (let at = 0; at < text.length; at++) {
    const code = text.charCodeAt(at);
    bytes[at] = CHARACTERS.get(code) ?? code;
  }
  return bytes;
}

const decoder = new TextDecoder("utf-8", { ignoreBOM: true });

/** Bytes as text; what is no UTF-8 becomes U+FFFD. */
function decoded(bytes) {
  return decoder.decode(bytes);
}

/** The lines of a file, each as bytes without its newline. */
function linesOf(bytes) {
  const lines = [];
  let start = 0;
  for (let end = bytes.indexOf(10); end >= 0; end = bytes.indexOf(10, start)) {
    lines.push(bytes.subarray(start, end));
    start = end + 1;
  }
  if (start < bytes.length) lines.push(bytes.subarray(start));
  return lines;
}

/** An example, as names with their values: `A=1 N=-3`, or `-` where there is no feature. */
function valuesOf(example) {
  const settings = example === "-" ? [] : example.split(" ");
  return new Map(settings.map((setting) => {
    const [name, value] = setting.split("=");
    return [name, BigInt(value)];
  }));
}

/** The alarms of a report: lines `LINE:COLUMN: KIND if REGION; example CONFIGURATION`. */
function alarmsOf(text) {
  const alarms = [];
  for (const line of text.split("\n")) {
    const parts = /^(\d+):(\d+): ([a-z-]+) if (.*); example (.*)$/.exec(line);
    if (parts) {
      const [, at, column, kind, region, example] = parts;
      alarms.push({ line: Number(at), column: Number(column), kind, region, example });
    }
  }
  return alarms;
}

/** What is known: lines `LINE:COLUMN: if REGION: LEAF`. */
function invariantsOf(text) {
  const invariants = [];
  for (const line of text.split("\n")) {
    const parts = /^(\d+):(\d+): if (.*?): (.*)$/.exec(line);
    if (parts) {
      const [, at, column, region, leaf] = parts;
      invariants.push({ line: Number(at), column: Number(column), region, leaf });
    }
  }
  return invariants;
}

/** The features and constraints of a model. A switch is a number from 0 to 1. */
function modelOf(text) {
  const model = JSON.parse(text);
  const features = model.features.map(({ name, min, max }) =>
    min === undefined ? { name, isSwitch: true, min: 0n, max: 1n } : { name, isSwitch: false, min: BigInt(min), max: BigInt(max) });
  return { features, constraints: model.constraints ?? [] };
}
