"use strict";
// What is done and read in a page: each is the text of a function or a value.

/** What the page shows of its configuration. */
const SHOWN = `() => {
  const numbers = (selector) => [...document.querySelectorAll(selector)].map((line) => Number(line.id.slice(5)));
  const said = (item) => item.querySelector("a").textContent + ": " + item.querySelector("code").textContent.split(" ")[0];
  return {
    count: document.getElementById("count").textContent,
    valid: document.getElementById("validity").textContent === "The configuration is valid.",
    values: [...document.querySelectorAll("#features input")].map((input) => [input.id.slice(8), input.type === "checkbox" ? Number(input.checked) : Number(input.value)]),
    lit: [...document.querySelectorAll("#list .alarm.lit")].map(said),
    out: numbers(".line.left-out:not(.directive)"),
    dead: numbers(".line.unreachable"),
    known: [...document.querySelectorAll(".line:not(.left-out) .known div")].map((known) => known.textContent),
  };
}`;

/** Sets the inputs as a person does, and reads what is shown. */
const CHOOSE = `(values) => {
  for (const [name, value] of values) {
    const input = document.getElementById("feature-" + name);
    if (input.type === "checkbox") { if (input.checked !== (value === 1)) input.click(); }
    else { input.value = value; input.dispatchEvent(new Event("input", { bubbles: true })); }
  }
  return (${SHOWN})();
}`;

/** Clicks on each alarm of the list: its example, what the alarm says, and what is shown then. */
const CHOOSE_EXAMPLES = `[...document.querySelectorAll("#list .alarm")].map((item) => {
  item.querySelector("button").click();
  return { said: item.querySelector("code").textContent, isLit: item.classList.contains("lit"), shown: (${SHOWN})() };
})`;

/** The texts of the page, read back: a character for each byte. */
const TEXTS = `Object.fromEntries(["alarms", "file", "report", "model"].map((id) =>
  [id, Array.from(bytesOf(document.getElementById(id).textContent), (byte) => String.fromCharCode(byte)).join("")]))`;

/** Which of the texts are to be seen. */
const HEIGHTS = `["alarms", "file", "report", "model", "about"].map((id) => document.getElementById(id).getBoundingClientRect().height > 0)`;

/** Elements that no part of the page has, unless a text became one. */
const STRANGE = `document.querySelectorAll("img, iframe, object, embed, script ~ script, body [onerror], link").length`;

const FEATURES = `[...document.querySelectorAll("#features input")].map((input) => ({
  name: input.id.slice(8), min: Number(input.min || 0), max: input.type === "checkbox" ? 1 : Number(input.max) }))`;

// names, contrast and order, as far as a script can tell: each control has a name, and each text 4.5 to 1 against its ground (WCAG 2.1, 1.4.3)
const FAULTS = `(() => {
  const faults = [];
  const luminance = ([r, g, b]) => {
    const part = (x) => { const s = x / 255; return s <= 0.03928 ? s / 12.92 : ((s + 0.055) / 1.055) ** 2.4; };
    return 0.2126 * part(r) + 0.7152 * part(g) + 0.0722 * part(b);
  };
  const colour = (text) => text.match(/[0-9.]+/g).map(Number);
  const ground = (element) => {
    for (let at = element; at; at = at.parentElement) {
      const found = colour(getComputedStyle(at).backgroundColor);
      if (found.length < 4 || found[3] > 0) return found;
    }
    return [255, 255, 255];
  };
  // elements with the same names and classes up to the body look the same
  const looks = new Set();
  const look = (element) => (element === document.body ? "" : look(element.parentElement) + " " + element.localName + "." + element.className);
  for (const element of document.querySelectorAll("body *")) {
    if (looks.has(look(element))) continue;
    const isText = [...element.childNodes].some((node) => node.nodeType === 3 && node.data.trim() !== "");
    if (!isText || element.closest("[hidden], script, .hidden-text, .skip")) continue;
    looks.add(look(element));
    const [a, b] = [luminance(colour(getComputedStyle(element).color)), luminance(ground(element))].sort((x, y) => y - x);
    const ratio = (a + 0.05) / (b + 0.05);
    if (ratio < 4.5) faults.push("contrast " + ratio.toFixed(2) + " of " + element.outerHTML.slice(0, 80));
  }
  for (const control of document.querySelectorAll("button, input")) {
    const name = control.getAttribute("aria-label") || [...(control.labels ?? [])].map((label) => label.textContent.trim()).join("") || control.textContent.trim();
    if (!name) faults.push("no name: " + control.outerHTML.slice(0, 80));
  }
  const ids = [...document.querySelectorAll("[id]")].map((element) => element.id);
  if (new Set(ids).size !== ids.length) faults.push("an id twice");
  return [...new Set(faults)].slice(0, 5);
})()`;

module.exports = { CHOOSE, CHOOSE_EXAMPLES, FAULTS, FEATURES, HEIGHTS, STRANGE, TEXTS };
