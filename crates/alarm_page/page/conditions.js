// Conditions as in `#if` (ISO/IEC 9899:2011, 6.10.1), and the groups of a file.

const LEVELS = [["||"], ["&&"], ["==", "!="], ["<", "<=", ">", ">="], ["+", "-"], ["*"]];

/** What operators make of two numbers. `&&` and `||` have no side that could stop. */
const OPERATIONS = {
  "||": (a, b) => truth(a !== 0n || b !== 0n),
  "&&": (a, b) => truth(a !== 0n && b !== 0n),
  "==": (a, b) => truth(a === b),
  "!=": (a, b) => truth(a !== b),
  "<": (a, b) => truth(a < b),
  "<=": (a, b) => truth(a <= b),
  ">": (a, b) => truth(a > b),
  ">=": (a, b) => truth(a >= b),
  "+": (a, b) => a + b,
  "-": (a, b) => a - b,
  "*": (a, b) => a * b,
};

function truth(holds) {
  return holds ? 1n : 0n;
}

function tokensOf(text) {
  const tokens = text.match(/[A-Za-z_][A-Za-z_0-9]*|[0-9][0-9A-Za-z]*|&&|\|\||[=!<>]=|[!+\-*<>()]|\S/g) ?? [];
  return { list: tokens, at: 0 };
}

function taken(tokens, ...words) {
  if (!words.includes(tokens.list[tokens.at])) return undefined;
  return tokens.list[tokens.at++];
}

/** An integer constant: decimal, octal or hexadecimal, perhaps with a suffix that says long (ISO/IEC 9899:2011, 6.4.4.1). */
function numberOf(word) {
  const [, digits] = /^(0[xX][0-9a-fA-F]+|[0-9]+)(?:l|L|ll|LL)?$/.exec(word) ?? [];
  if (digits === undefined) throw new Error(`no condition: ${word}`);
  return BigInt(/^0[0-7]+$/.test(digits) ? `0o${digits.slice(1)}` : digits);
}

function parseName(tokens) {
  const isGroup = taken(tokens, "(") !== undefined;
  const name = tokens.list[tokens.at++];
  if (isGroup) tokens.at++;
  return name;
}

/** A name, a number, a group, or one of these behind a prefix, as a function of an environment. */
function parsePrimary(tokens) {
  const prefix = taken(tokens, "!", "-", "+");
  if (prefix !== undefined) {
    const operand = parsePrimary(tokens);
    if (prefix === "!") return (names) => truth(operand(names) === 0n);
    return prefix === "-" ? (names) => -operand(names) : operand;
  }
  if (taken(tokens, "(") !== undefined) {
    const inner = parseLevel(tokens, 0);
    if (taken(tokens, ")") === undefined) throw new Error("no )");
    return inner;
  }
  if (taken(tokens, "defined") !== undefined) {
    const name = parseName(tokens);
    return (names) => truth(names.has(name));
  }
  const word = tokens.list[tokens.at++];
  if (/^[A-Za-z_]/.test(word)) return (names) => names.get(word) ?? 0n;
  const number = numberOf(word);
  return () => number;
}

function parseLevel(tokens, level) {
  if (level === LEVELS.length) return parsePrimary(tokens);
  let left = parseLevel(tokens, level + 1);
  for (let sign = taken(tokens, ...LEVELS[level]); sign !== undefined; sign = taken(tokens, ...LEVELS[level])) {
    const operation = OPERATIONS[sign];
    const first = left;
    const second = parseLevel(tokens, level + 1);
    left = (names) => operation(first(names), second(names));
  }
  return left;
}

const parsed = new Map();

/** A condition as a test of an environment: the macros that are defined, with their values. */
function conditionOf(text) {
  let test = parsed.get(text);
  if (test === undefined) {
    const tokens = tokensOf(text);
    const value = parseLevel(tokens, 0);
    if (tokens.at < tokens.list.length) throw new Error(`behind a condition: ${tokens.list[tokens.at]}`);
    test = (names) => value(names) !== 0n;
    parsed.set(text, test);
  }
  return test;
}

/** The macros of a configuration: a switch that is off is not defined. */
function environmentOf(features, values) {
  const names = new Map();
  for (const { name, isSwitch } of features) {
    const value = values.get(name);
    if (!isSwitch || value !== 0n) names.set(name, value);
  }
  return names;
}

/** The numbers of the constraints that are false, and the names of the features out of range. */
function faultsOf(model, values) {
  const outside = model.features.filter(({ name, min, max }) => {
    const value = values.get(name);
    return value === undefined || value < min || value > max;
  });
  if (outside.length > 0) return { outside: outside.map((feature) => feature.name), broken: [] };
  const names = environmentOf(model.features, values);
  const broken = model.constraints.map((_, at) => at).filter((at) => !conditionOf(model.constraints[at])(names));
  return { outside: [], broken };
}

/** A file without its comments: spaces in their place, and newlines as they were. */
function withoutComments(text) {
  return text.replace(/\/\*[^]*?\*\/|\/\/[^\n]*/g, (comment) => comment.replace(/[^\n]/g, " "));
}

/** The test of a group: its section is kept, no earlier group of the section is, and its own condition holds. */
function groupOf(outer, earlier, test) {
  return { outer, earlier, test };
}

function testOf(word, rest) {
  if (word === "ifdef") return conditionOf(`defined ${rest}`);
  if (word === "ifndef") return conditionOf(`!defined ${rest}`);
  return word === "else" ? () => true : conditionOf(rest);
}

/**
 * The lines of a file with what keeps them. Each has a depth, and the group around it, or null; the line of a group directive belongs to
 * what stands around its section.
 */
function groupedLines(text) {
  const open = [];
  const inner = () => (open.length > 0 ? open[open.length - 1].group : null);
  return withoutComments(text).split("\n").map((line) => {
    const [, word, rest] = /^\s*#\s*([a-z]*)(.*)$/.exec(line) ?? [];
    if (word === "if" || word === "ifdef" || word === "ifndef") {
      const outer = inner();
      open.push({ outer, group: groupOf(outer, [], testOf(word, rest.trim())) });
      return { depth: open.length, group: outer, isDirective: true };
    }
    if ((word === "elif" || word === "else" || word === "endif") && open.length > 0) {
      const section = open[open.length - 1];
      const depth = open.length;
      if (word === "endif") open.pop();
      else section.group = groupOf(section.outer, [...section.group.earlier, section.group.test], testOf(word, rest.trim()));
      return { depth, group: section.outer, isDirective: true };
    }
    return { depth: open.length, group: inner(), isDirective: word !== undefined };
  });
}

/** Which groups an environment keeps, asked once for each. */
function keeping(names) {
  const known = new Map([[null, true]]);
  return function isKept(group) {
    let kept = known.get(group);
    if (kept === undefined) {
      kept = isKept(group.outer) && !group.earlier.some((test) => test(names)) && group.test(names);
      known.set(group, kept);
    }
    return kept;
  };
}
