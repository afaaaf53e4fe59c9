// What is shown of a configuration.

/** An element with attributes and children; texts become text, never markup. */
function made(name, attributes, ...children) {
  const element = document.createElement(name);
  for (const [key, value] of Object.entries(attributes)) element.setAttribute(key, value);
  element.append(...children);
  return element;
}

function byLine(items) {
  const lines = new Map();
  for (const item of items) {
    if (!lines.has(item.line)) lines.set(item.line, []);
    lines.get(item.line).push(item);
  }
  return lines;
}

/** What the page tells, taken apart. */
function reportOf(textOfElement) {
  const bytes = (id) => bytesOf(textOfElement(id));
  const file = bytes("file");
  const ascii = (id) => decoded(bytes(id));
  const lines = linesOf(file);
  // a byte is a character here, so that places are as they are counted
  const grouped = groupedLines(lines.map((line) => Array.from(line, (byte) => String.fromCharCode(byte)).join("")).join("\n"));
  const alarms = alarmsOf(ascii("alarms"));
  return {
    model: modelOf(ascii("model")),
    lines: lines.map((line, at) => ({ bytes: line, ...grouped[at] })),
    alarms,
    alarmsAt: byLine(alarms),
    knownAt: byLine(invariantsOf(ascii("report"))),
  };
}

/** What holds in a configuration; `isValid` false where it is none. */
function stateOf(report, values) {
  const faults = faultsOf(report.model, values);
  const isValid = faults.outside.length === 0 && faults.broken.length === 0;
  const names = environmentOf(report.model.features, new Map([...values].map(([name, value]) => [name, value ?? 0n])));
  const isKept = keeping(names);
  const meets = (item) => isValid && conditionOf(item.region)(names);
  return {
    faults,
    isValid,
    isKept: (line) => isKept(line.group),
    lit: new Set(report.alarms.filter(meets)),
    known: (at) => (report.knownAt.get(at) ?? []).filter(meets),
  };
}

/** Whether all that stands on a line is not reached. */
function isUnreachable(known) {
  return known.length > 0 && known.every(({ leaf }) => leaf === "unreachable");
}

/** The values to begin with: the first example, or the least of each range. */
function firstValues(report) {
  if (report.alarms.length > 0) return valuesOf(report.alarms[0].example);
  return new Map(report.model.features.map(({ name, min }) => [name, min]));
}

const counted = (count, word) => `${count} ${word}${count === 1 ? "" : "s"}`;

/** The sentence at the head. */
function headline(report, state) {
  const { outside, broken } = state.faults;
  if (outside.length > 0) return `No configuration: ${outside.join(", ")} out of range.`;
  if (broken.length > 0) {
    const numbers = broken.map((at) => at + 1).join(", ");
    return `No valid configuration: constraint ${numbers} ${broken.length === 1 ? "is" : "are"} false. Alarms are told of valid configurations alone.`;
  }
  const lines = counted(report.alarms.length, "alarm line");
  return `This configuration has ${counted(state.lit.size, "alarm")}, of ${lines} of the whole family.`;
}

/** The view of a report: the elements that change, and the values that are chosen. */
class View {
  constructor(report) {
    this.report = report;
    this.values = firstValues(report);
    this.inputs = new Map();
    this.opened = new Set();
    this.alarmElements = [];
    this.lineElements = [];
    this.find = (id) => document.getElementById(id);
  }

  build() {
    this.buildPanel();
    this.buildList();
    this.buildListing();
    this.find("all-known").addEventListener("change", () => this.showKnown());
    this.show();
    this.find("view").hidden = false;
    for (const details of document.querySelectorAll("#texts details")) details.open = false;
  }

  buildPanel() {
    const rows = this.report.model.features.map((feature) => this.featureRow(feature));
    this.find("features").append(...rows);
    this.find("features").addEventListener("submit", (event) => event.preventDefault());
    this.constraintElements = this.report.model.constraints.map((text) => {
      const state = made("span", {});
      this.find("constraints").append(made("li", {}, made("code", {}, text), " ", state));
      return state;
    });
  }

  featureRow({ name, isSwitch, min, max }) {
    const id = `feature-${name}`;
    const input = isSwitch ? made("input", { type: "checkbox", id }) : made("input", { type: "number", id, min, max, step: 1, required: "" });
    input.addEventListener("input", () => {
      this.values.set(name, isSwitch ? BigInt(input.checked) : wholeOf(input.value));
      this.show();
    });
    this.inputs.set(name, input);
    const label = made("label", { for: id }, name);
    if (isSwitch) return made("div", {}, input, label);
    const range = made("span", { class: "range", id: `${id}-range` }, `${min} to ${max}`);
    input.setAttribute("aria-describedby", range.id);
    return made("div", {}, label, input, range);
  }

  /** A button that chooses the example of an alarm, with what the alarm says. */
  alarmElement(alarm, name, link) {
    const button = made("button", { type: "button", "aria-label": `choose the example of ${alarm.kind} at ${alarm.line}:${alarm.column}` }, "choose");
    button.addEventListener("click", () => this.choose(valuesOf(alarm.example)));
    const state = made("span", { class: "state" });
    const said = made("code", {}, `${alarm.kind} if ${alarm.region}; example ${alarm.example}`);
    const element = made(name, { class: "alarm" }, ...link, button, " ", said, " ", state);
    this.alarmElements.push({ alarm, element, state });
    return element;
  }

  buildList() {
    for (const alarm of this.report.alarms) {
      const link = made("a", { href: `#line-${alarm.line}` }, `${alarm.line}:${alarm.column}`);
      this.find("list").append(this.alarmElement(alarm, "li", [link, " "]));
    }
  }

  buildListing() {
    const listing = this.find("listing");
    const elements = this.report.lines.map((line, at) => this.lineElement(line, at + 1));
    listing.append(...elements);
    const first = listing.querySelector("button.number");
    if (first) first.tabIndex = 0;
    listing.addEventListener("keydown", (event) => this.moveBy(event));
  }

  lineElement(line, at) {
    const isKnown = this.report.knownAt.has(at);
    const number = isKnown
      ? made("button", { type: "button", class: "number", tabindex: "-1", "aria-expanded": "false", "aria-label": `line ${at}: what is known there` }, String(at))
      : made("span", { class: "number" }, String(at));
    const mark = made("span", { class: "mark" });
    const row = made("div", { class: "row" }, number, mark, made("code", {}, decoded(line.bytes).replace(/\r$/, "")));
    const element = made("div", { class: `line depth-${Math.min(line.depth, 4)}${line.isDirective ? " directive" : ""}`, id: `line-${at}` }, row);
    if (isKnown) number.addEventListener("click", () => this.toggle(at));
    for (const alarm of this.report.alarmsAt.get(at) ?? []) {
      element.append(this.alarmElement(alarm, "div", []));
      element.lastChild.classList.add("note");
    }
    this.lineElements.push({ line, at, element, row, number, mark, known: null });
    return element;
  }

  /** The keys that go from the number of one line to another. */
  moveBy(event) {
    if (!event.target.matches("button.number")) return;
    const numbers = [...this.find("listing").querySelectorAll("button.number")];
    const from = numbers.indexOf(event.target);
    const to = { ArrowDown: from + 1, ArrowUp: from - 1, Home: 0, End: numbers.length - 1 }[event.key];
    if (to === undefined || numbers[to] === undefined) return;
    event.preventDefault();
    event.target.tabIndex = -1;
    numbers[to].tabIndex = 0;
    numbers[to].focus();
  }

  toggle(at) {
    if (!this.opened.delete(at)) this.opened.add(at);
    this.showKnown();
  }

  choose(values) {
    this.values = values;
    this.show();
  }

  /** Shows all that depends on the configuration. */
  show() {
    this.state = stateOf(this.report, this.values);
    this.find("count").textContent = headline(this.report, this.state);
    this.showPanel();
    for (const { alarm, element, state } of this.alarmElements) {
      const isLit = this.state.lit.has(alarm);
      element.classList.toggle("lit", isLit);
      state.textContent = isLit ? "in this configuration" : "not in this one";
    }
    for (const parts of this.lineElements) this.showLine(parts);
    this.showKnown();
  }

  showPanel() {
    for (const [name, input] of this.inputs) {
      const value = this.values.get(name);
      if (input.type === "checkbox") input.checked = value === 1n;
      else if (wholeOf(input.value) !== value) input.value = value ?? "";
    }
    this.find("validity").textContent = this.state.isValid ? "The configuration is valid." : "The configuration is not valid.";
    this.find("validity").classList.toggle("broken", !this.state.isValid);
    const { outside, broken } = this.state.faults;
    this.constraintElements.forEach((element, at) => {
      const isBroken = broken.includes(at);
      element.textContent = outside.length > 0 ? "" : isBroken ? "false" : "true";
      element.classList.toggle("broken", isBroken);
    });
  }

  showLine({ line, at, element, mark }) {
    const alarms = this.report.alarmsAt.get(at) ?? [];
    const isKept = this.state.isKept(line);
    const hasAlarm = alarms.some((alarm) => this.state.lit.has(alarm));
    const isDead = isKept && isUnreachable(this.state.known(at));
    element.classList.toggle("left-out", !isKept);
    element.classList.toggle("has-alarm", hasAlarm);
    element.classList.toggle("unreachable", isDead);
    const [sign, said] = hasAlarm ? ["!", "alarm"] : !isKept ? ["-", "left out"] : isDead ? ["0", "unreachable"] : alarms.length > 0 ? ["?", ""] : ["", ""];
    if (mark.dataset.sign === sign) return;
    mark.dataset.sign = sign;
    mark.title = said;
    mark.replaceChildren(sign, ...(said ? [made("span", { class: "hidden-text" }, ` ${said} `)] : []));
  }

  /** Shows what is known at the lines that are opened, or at all. */
  showKnown() {
    const isAll = this.find("all-known").checked;
    for (const parts of this.lineElements) {
      if (!this.report.knownAt.has(parts.at)) continue;
      const isOpen = isAll || this.opened.has(parts.at);
      parts.number.setAttribute("aria-expanded", String(isOpen));
      parts.known?.remove();
      parts.known = isOpen ? this.knownElement(parts) : null;
      if (parts.known) parts.row.after(parts.known);
    }
  }

  knownElement({ line, at }) {
    const known = this.state.isValid && this.state.isKept(line) ? this.state.known(at) : [];
    const said = known.map(({ column, leaf }) => made("div", {}, `${at}:${column}: ${leaf}`));
    const none = this.state.isValid ? "left out in this configuration" : "no valid configuration";
    return made("div", { class: "known" }, ...(said.length > 0 ? said : [none]));
  }
}

/** A whole number, or nothing. */
function wholeOf(text) {
  return /^-?[0-9]+$/.test(text) ? BigInt(text) : undefined;
}

if (typeof document === "undefined") {
  module.exports = { bytesOf, reportOf, stateOf, valuesOf, conditionOf, environmentOf, faultsOf, isUnreachable, headline, firstValues };
} else {
  try {
    new View(reportOf((id) => document.getElementById(id).textContent)).build();
  } catch (fault) {
    document.getElementById("view").classList.add("failed");
    throw fault;
  }
}
