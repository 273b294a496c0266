/* The parser's own thread: it holds the module and one file, and answers one question after the other. What takes too long is ended from
 * outside with the whole worker. */
import { Ipg, IpgError } from "../targets/ipg.mjs";
import { KIND, buffers_of, columns_of_json, columns_of_rows } from "./columns.mjs";
import { literals } from "./lexer.mjs";

/**
 * @typedef {{ status: number, text: string }} Said
 * @typedef {{ kind: "tree", tree: import("./columns.mjs").Columns }
 *   | { kind: "refused", said: Said, may: string[] }
 *   | { kind: "failed", said: Said }
 *   | { kind: "said", said: Said, bytes: Uint8Array }
 *   | { kind: "guessed", name: string | null }
 *   | { kind: "fault", said: Said }} Answer
 */

const host = /** @type {{ onmessage: unknown, postMessage(message: unknown, transfer?: Transferable[]): void }} */ (/** @type {unknown} */ (self));
const encoder = new TextEncoder();
const decoder = new TextDecoder();
/** @type {Ipg} */
let ipg;
/** @type {import("../targets/ipg.mjs").Input | null} */
let input = null;
/** @type {{ text: string, strings: Set<string> | null, grammar: import("../targets/ipg.mjs").Grammar } | null} */
let known = null;

/** How many rows the next tree is likely to have. */
let rows = 0;

/**
 * Room is made for so many, so that most files are parsed once. Pages that no row comes to cost nothing.
 * @param {number} size of the file
 */
const likely_rows = (size) => Math.max(rows, Math.min(2 * size + 1024, 1 << 20), Math.min(size >> 3, 1 << 23));

const said = (/** @type {number} */ status, /** @type {string} */ text) => ({ status, text });

/** @param {string[]} words @param {string} grammar */
function run(words, grammar) {
  const files = new Map(/** @type {[string, import("../targets/ipg.mjs").Data][]} */ ([["g", encoder.encode(grammar)], ["input", input ?? ""]]));
  return ipg.run(words, files);
}

/** @param {string[]} words @param {string} grammar @returns {Said} */
function told(words, grammar) {
  const { status, output } = run(words, grammar);
  return said(status, decoder.decode(output));
}

/** @param {string} text @returns {Answer} */
function parse(text) {
  try {
    if (known?.text !== text) known = { text, strings: null, grammar: ipg.grammar(encoder.encode(text)) };
    const { words, values, length } = known.grammar.parse(input ?? "", likely_rows(input?.size ?? 0));
    rows = length + (length >> 4);
    return { kind: "tree", tree: columns_of_rows(known.grammar.rules, known.grammar.attributes, words, values, (tree) => measure(tree, text)) };
  } catch (error) {
    if (!(error instanceof IpgError)) throw error;
    if (error.status === 2) return { kind: "refused", said: said(2, error.text), may: expected(text, error.text) };
    if (error.status === 1 || error.status === 3) return { kind: "failed", said: told(["explain", "g", "input"], text) };
    return { kind: "fault", said: said(error.status, error.text || error.message) };
  }
}

const LONGEST = 1 << 12; // a string is hardly longer
const MOST_JSON = 1 << 28; // of a longer text strings have their intervals
const LARGE = 1 << 14; // of a larger text it isn't worked out what may stand where it stops
/**
 * A row of a string has its interval, which may be longer than the string. Where it holds no string of the grammar, the JSON text says how
 * long each is, in the same order.
 * @param {import("./columns.mjs").Columns} tree
 * @param {string} text
 */
function measure(tree, text) {
  const bytes = input?.bytes ?? new Uint8Array(0);
  const strings = () => (known ? (known.strings ??= literals(text)) : new Set());
  const is_wide = tree.kinds.some((kind, row) => {
    if (kind !== KIND.terminal) return false;
    return tree.low[row] > LONGEST || !strings().has(String.fromCharCode(...bytes.subarray(tree.from[row], tree.to[row])));
  });
  if (!is_wide) return;
  const { output } = run(["json", "g", "input"], text);
  if (output.length > MOST_JSON) return;
  const sizes = decoder.decode(output).matchAll(/"prim":"tok","from":\d+,"to":\d+,"hex":"([0-9a-f]*)"/g);
  for (let row = 0; row < tree.count; row++) {
    if (tree.kinds[row] === KIND.terminal) tree.low[row] = (sizes.next().value?.[1].length ?? 0) / 2;
  }
}

const TRIED = ["NAME", '"text"', "1", "EOI", "start", "->", "/", ";", "[", "]", "{", "}", "(", ")", ",", ".", "=", "?", ":", "+", "==", "for", "to", "do",
  "many", "switch", "case", "else", "where"];

/**
 * What may stand where a grammar stops being one: a token may, where with it the reader's complaint is of what comes next.
 * @param {string} text
 * @param {string} complaint
 */
function expected(text, complaint) {
  const place = /^refused G4 Syntax (\d+)$/m.exec(complaint);
  if (!place || Number(place[1]) > LARGE) return [];
  const before = `${decoder.decode(encoder.encode(text).subarray(0, Number(place[1])))} `;
  const at = encoder.encode(before).length;
  return TRIED.filter((token) => {
    // two marks that can't stand behind one another, so that no grammar is ever whole
    const { text: next } = told(["check", "g"], `${before}${token} -> ->`);
    const fault = /^refused G4 Syntax (\d+)/.exec(next);
    return fault !== null && Number(fault[1]) > at;
  });
}

/** @param {[string, string][]} grammars by their names @returns {Answer} */
function guess(grammars) {
  const found = grammars.find(([, text]) => run(["query", "g", "input", "NONE"], text).status === 0);
  return { kind: "guessed", name: found ? found[0] : null };
}

/**
 * Numbers past 2^53 are kept as their digits.
 * @param {string} text
 * @returns {Answer}
 */
function read_json(text) {
  try {
    return { kind: "tree", tree: columns_of_json(JSON.parse(text.replace(/:(-?\d{16,})(?=[,}])/g, ':"$1"'))) };
  } catch (error) {
    return { kind: "fault", said: said(0, `This is no tree of ipg json: ${error instanceof Error ? error.message : error}`) };
  }
}

/** @param {Uint8Array} bytes */
function hold(bytes) {
  input?.free();
  input = ipg.input(bytes.length);
  input.bytes.set(bytes);
}

/** @param {any} asked @returns {Answer} */
function answer(asked) {
  switch (asked.kind) {
    case "parse":
      return parse(asked.grammar);
    case "guess":
      return guess(asked.grammars);
    case "json":
      return read_json(asked.text);
    default: {
      const { status, output } = run(asked.words, asked.grammar);
      return { kind: "said", said: said(status, decoder.decode(output.subarray(0, 1 << 16))), bytes: output };
    }
  }
}

/** @param {Answer} given */
function handed(given) {
  if (given.kind === "tree") return buffers_of(given.tree);
  return given.kind === "said" ? [given.bytes.buffer] : [];
}

/**
 * The module stopped, and its memory with the file in it is gone: the page gives it anew.
 * @param {unknown} error
 * @returns {Answer}
 */
const stopped = (error) => ({ kind: "fault", said: said(7, `The parser stopped: ${error instanceof Error ? error.message : error}`) });

host.onmessage = async (/** @type {MessageEvent} */ { data }) => {
  if (data.kind === "start") {
    if (data.module) ipg = await Ipg.load(data.module);
    return;
  }
  let given;
  try {
    if (data.kind === "file") return hold(data.bytes);
    if (data.kind === "edit") return void (input && (input.bytes[data.at] = data.value));
    given = answer(data);
  } catch (error) {
    given = stopped(error);
  }
  host.postMessage({ id: data.id, given }, handed(given));
};
