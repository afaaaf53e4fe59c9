"use strict";
// The families whose pages are tried: each with the options of its page, and the texts of MODEL and FILE.
const fs = require("node:fs");
const path = require("node:path");

const TOP = path.resolve(__dirname, "../..");

const example = (name) => ["json", "c"].map((ending) => fs.readFileSync(path.join(TOP, `examples/families/${name}.${ending}`)));

/** Thirty switches, each with a group of its own. */
function switches() {
  const names = Array.from({ length: 30 }, (_, at) => `SWITCH_${at + 1}`);
  const model = JSON.stringify({ features: names.map((name) => ({ name })), constraints: ["!SWITCH_1 || !SWITCH_2"] });
  const groups = names.map((name, at) => `#ifdef ${name}\n    x = input();\n    assert(x != ${at});\n#endif\n`).join("");
  return [Buffer.from(model), Buffer.from(`int x;\nint main(void)\n{\n${groups}    return 0;\n}\n`)];
}

/** 5,000 lines with all that could end a text or a script, and bytes that are no UTF-8. */
function hostile() {
  const model = JSON.stringify({ features: [{ name: "SAFE" }, { name: "SIZE", min: 0, max: 9 }], constraints: ["!SAFE || SIZE <= 4"] });
  const comment = Buffer.concat([
    Buffer.from("/* </script></pre><script>throw 1</script><img src=x onerror=alert(1)> ]]> <!-- \" ' & &amp; &#60; \u00e9\u4e16 "), Buffer.from([0xff, 0xc3, 0x80, 0x9f, 0x0b, 0x7f]), Buffer.from(" */\n"),
  ]);
  const spelled = [String, (size) => `0x${size.toString(16)}`, (size) => `${size}L`, (size) => `0${size.toString(8)}`];
  const lines = [Buffer.from("int x;\nint y;\nint main(void)\n{\n")];
  for (let at = 0; at < 833; at++) {
    lines.push(comment, Buffer.from(`#if !SAFE && SIZE >= ${spelled[at % 4](at % 10)}\n    x = ${at};\n#else\n    y = ${at};\n#endif\n`));
  }
  lines.push(Buffer.from("    assert(x != 832);\n    return 0;\n}\n"));
  return [Buffer.from(model), Buffer.concat(lines)];
}

const FAMILIES = [
  { name: "ring", options: [], texts: () => example("ring") },
  { name: "queue", options: [], texts: () => example("queue") },
  { name: "queue_merged", options: ["--regions=merged"], texts: () => example("queue") },
  { name: "queue_octagon", options: ["--domain=octagon"], texts: () => example("queue") },
  { name: "switches", options: ["--regions=merged"], texts: switches },
  { name: "hostile", options: [], texts: hostile },
];

/** The same hostile file, with a section that nothing ends. */
const REFUSED = { name: "refused", options: [], status: 4, texts: () => hostile().map((text, at) => (at === 0 ? text : Buffer.concat([Buffer.from("#if SAFE\n"), text]))) };

module.exports = { FAMILIES, REFUSED };
