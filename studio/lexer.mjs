/* The tokens of a grammar's line, for colours and completion. Strings and comments end with their line, so each line stands for itself. */

export const PRIMITIVES = ["U8", "U16LE", "U16BE", "U32LE", "U32BE", "U64LE", "U64BE", "Bytes"];
const KEYWORDS = ["for", "to", "do", "switch", "case", "else", "where", "many", "tok"];
const PLACES = ["EOI", "start", "end"];
/** Of a longer line no more is coloured or completed: nobody wrote it by hand. */
export const LONG_LINE = 2000;
const LARGE = 1 << 16; // of a larger text only so much is looked at for names
const TOKEN = /(#.*)|("(?:\\.|[^"\\\n])*"?)|\b(0x[0-9A-Fa-f]+|\d+)|([A-Za-z_]\w*)|(->|<<|>>|&&|\|\||[=!<>]=|[\][{}(),.;=?:+*%/<>&|^!-])|\s+|./gy;

/** @param {string} word */
function class_of_word(word) {
  if (PRIMITIVES.includes(word)) return "primitive";
  if (KEYWORDS.includes(word)) return "keyword";
  return PLACES.includes(word) ? "place" : "name";
}

/** @param {string} line @returns {{ text: string, kind: string }[]} */
export function tokens(line) {
  return [...line.matchAll(TOKEN)].map(([text, comment, string, number, word, symbol]) => {
    if (word !== undefined) return { text, kind: class_of_word(word) };
    if (comment !== undefined) return { text, kind: "comment" };
    if (string !== undefined) return { text, kind: "string" };
    return { text, kind: number !== undefined ? "number" : symbol !== undefined ? "symbol" : "" };
  });
}

/**
 * The strings of a text, each as a text of its bytes.
 * @param {string} text
 */
export function literals(text) {
  const found = text.split("\n").flatMap((line) => tokens(line).filter(({ kind }) => kind === "string"));
  const byte = (/** @type {string} */ _, /** @type {string} */ digits, /** @type {string} */ plain) => plain ?? String.fromCharCode(parseInt(digits, 16));
  return new Set(found.map(({ text: string }) => string.slice(1, -1).replace(/\\x([0-9A-Fa-f]{2})|\\(.)/g, byte)));
}

/**
 * The rules of a text with their attributes, as far as it can be read.
 * @param {string} text
 */
export function outline(text) {
  /** @type {Map<string, Set<string>>} */
  const rules = new Map();
  let attributes = new Set();
  const all = tokens(text.slice(0, LARGE)).filter(({ kind, text: word }) => kind !== "comment" && word.trim());
  for (let i = 0; i + 1 < all.length; i++) {
    const [before, { kind, text: word }, behind] = [all[i - 1]?.text, all[i], all[i + 1].text];
    if (kind !== "name") continue;
    if (behind === "->") rules.set(word, (attributes = rules.get(word) ?? new Set()));
    else if (before === "{" && behind === "=") attributes.add(word);
  }
  return rules;
}

/**
 * The fields that may stand behind a name and a dot.
 * @param {Map<string, Set<string>>} rules
 * @param {string} name
 */
function fields_of(rules, name) {
  if (/^U64/.test(name)) return ["hi", "lo", "start", "end"];
  if (/^U(8|16|32)/.test(name)) return ["val", "start", "end"];
  return [...(rules.get(name) ?? []), "start", "end"];
}

/**
 * What a word before the caret may become: names in the order of their kinds.
 * @param {string} text
 * @param {number} caret
 * @param {boolean} wanted also where no letter stands there
 */
export function completions(text, caret, wanted) {
  const before = text.slice(text.lastIndexOf("\n", caret - 1) + 1, caret);
  if (before.length > LONG_LINE) return { word: "", names: [] };
  const [, owner, word] = /(?:([A-Za-z_]\w*)(?:\([^()]*\))?\.)?([A-Za-z_]\w*)?$/.exec(before) ?? [];
  const is_inside = tokens(before).some(({ kind, text: token }, i, all) =>
    i === all.length - 1 && (kind === "comment" || (kind === "string" && !/[^\\]"$/.test(token))));
  if (is_inside || (!word && !owner && !wanted)) return { word: "", names: [] };
  const rules = outline(text);
  const all = owner ? fields_of(rules, owner) : [...rules.keys(), ...[...rules.values()].flatMap((names) => [...names]), ...PRIMITIVES, ...KEYWORDS, "EOI"];
  const start = (word ?? "").toLowerCase();
  const names = [...new Set(all)].filter((name) => name.toLowerCase().startsWith(start) && name !== word);
  return { word: word ?? "", names: names.slice(0, 12) };
}

/**
 * The line and the column, counted from 0, of a place in the text.
 * @param {string} text
 * @param {number} at
 */
export function place_of(text, at) {
  const before = text.slice(0, at);
  const line = before.split("\n").length - 1;
  return { line, column: at - (before.lastIndexOf("\n") + 1) };
}

/**
 * The column in characters of one in bytes, both from 0.
 * @param {string} line
 * @param {number} column
 */
export function characters(line, column) {
  const bytes = new TextEncoder().encode(line);
  return new TextDecoder().decode(bytes.subarray(0, column)).length;
}

/**
 * Where a rule's name stands at its definition, or -1.
 * @param {string} text
 * @param {string} rule
 */
export function definition(text, rule) {
  const found = new RegExp(`(^|[^\\w.#"])(${rule})\\s*->`, "m").exec(text);
  return found ? found.index + found[1].length : -1;
}
