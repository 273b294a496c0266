/* What is told of the picked part: its places, and its value in several ways. */
import { KIND, attributes, hex_of, is_leaf, name_text, number_at } from "./columns.mjs";
import { element } from "./scroller.mjs";

/** @typedef {import("./columns.mjs").Columns} Columns */

/** @param {number | bigint} value */
const both = (value) => `${value} (${value < 0 ? "-" : ""}0x${(value < 0 ? -value : value).toString(16)})`;

/** @param {Uint8Array} bytes */
const text_of = (bytes) => [...bytes.subarray(0, 48)].map((byte) => (byte >= 32 && byte < 127 ? String.fromCharCode(byte) : "\u00b7")).join("");

/**
 * The first bytes as numbers.
 * @param {Uint8Array} bytes
 * @returns {[string, string][]}
 */
function words_of(bytes) {
  const view = new DataView(bytes.buffer, bytes.byteOffset, bytes.byteLength);
  /** @type {[number, (k: number, is_little: boolean) => number][]} */
  const readers = [[2, (k, is_little) => view.getUint16(k, is_little)], [4, (k, is_little) => view.getUint32(k, is_little)]];
  return readers.filter(([width]) => bytes.length >= width).flatMap(([width, read]) => {
    const places = Array.from({ length: Math.min(4, Math.floor(bytes.length / width)) }, (_, i) => i * width);
    return [true, false].map((is_little) => {
      const name = `U${8 * width}${is_little ? "LE" : "BE"}`;
      return /** @type {[string, string]} */ ([name, places.map((place) => read(place, is_little)).join(" ")]);
    });
  });
}

/** @param {Columns} tree @param {number} row @param {Uint8Array} bytes @returns {[string, string][]} */
function lines_of(tree, row, bytes) {
  const [start, end] = [tree.starts[row], tree.ends[row]];
  const own = bytes.subarray(start, end);
  /** @type {[string, string][]} */
  const lines = [["bytes", `${start}\u2013${end} (0x${start.toString(16)}\u20130x${end.toString(16)}), ${end - start} in all`]];
  if (tree.kinds[row] < KIND.array) lines.push(["part", `${tree.from[row]}\u2013${tree.to[row]}`]);
  else lines.push(["items", String(tree.low[row])]);
  for (const [name, value] of attributes(tree, row)) lines.push([name, both(value)]);
  if (tree.kinds[row] === KIND.number) {
    lines.push(["value", both(number_at(tree, row))], ["signed", String(BigInt.asIntN(8 * (end - start), number_at(tree, row)))]);
  }
  if (is_leaf(tree, row) && own.length) {
    lines.push(["hex", `${hex_of(own)}${own.length > 48 ? " \u2026" : ""}`], ["text", text_of(own)]);
    if (tree.kinds[row] !== KIND.number) lines.push(...words_of(own));
  }
  return lines;
}

/** @param {HTMLElement} box @param {[string, string][]} lines @param {string} title */
export function listed(box, title, lines) {
  const list = element("dl");
  for (const [name, value] of lines) list.append(element("dt", "", name), element("dd", "", value));
  box.replaceChildren(element("p", "head", title), list);
}

/** @param {HTMLElement} box @param {Columns} tree @param {number} row @param {Uint8Array} bytes */
export function detail(box, tree, row, bytes) {
  listed(box, name_text(tree, row), lines_of(tree, row, bytes));
}
