/* What a path of `query` picks, as rows of a tree. */
import { KIND, attributes } from "./columns.mjs";

/** @typedef {import("./columns.mjs").Columns} Columns */
/** @typedef {{ name: string, number: number | null }} Step */

export const MOST_PICKED = 1 << 20;
const PATH = /^(?:\*\*?|[A-Za-z_]\w*(?:\((?:0|[1-9]\d*)\))?)(?:\/(?:\*\*?|[A-Za-z_]\w*(?:\((?:0|[1-9]\d*)\))?))*(?:\.[A-Za-z_]\w*)?$/;

/**
 * The steps and the field of a path; null where it is none.
 * @param {string} path
 */
export function path_of(path) {
  if (!PATH.test(path)) return null;
  const [, steps, field] = /^(.*?)(?:\.(\w+))?$/.exec(path) ?? [];
  const made = steps.split("/").map((step) => {
    const [, name, number] = /^([^(]+)(?:\((\d+)\))?$/.exec(step) ?? [];
    return { name, number: number === undefined ? null : Number(number) };
  });
  return { steps: made, field: field ?? null };
}

/**
 * Rows are added up to a limit, since a step may come to far more of them than the tree has.
 * @param {Columns} tree
 * @param {number} row
 * @param {Step} step
 * @param {number[]} found
 */
function add_stepped(tree, row, { name, number }, found) {
  let count = 0;
  for (const kid of name === "**" ? within(tree, row) : kids(tree, row)) {
    if (found.length > MOST_PICKED) return;
    if (name !== "*" && name !== "**" && tree.names[tree.named[kid]] !== name) continue;
    if (number === null || number === count) found.push(kid);
    count++;
  }
}

/**
 * Items stand in the place of their array or repetition.
 * @param {Columns} tree
 * @param {number} row
 */
function* kids(tree, row) {
  if (tree.kinds[row] !== KIND.node) return;
  for (let kid = row + 1; kid < tree.behind[row]; kid = tree.behind[kid]) {
    if (tree.kinds[kid] < KIND.array) yield kid;
    else for (let item = kid + 1; item < tree.behind[kid]; item = tree.behind[item]) yield item;
  }
}

/**
 * @param {Columns} tree
 * @param {number} row
 */
function* within(tree, row) {
  for (let k = row; k < tree.behind[row]; k++) if (tree.kinds[k] < KIND.array) yield k;
}

/** @param {Columns} tree @param {number} row @param {string} field */
function has(tree, row, field) {
  const kind = tree.kinds[row];
  if (kind === KIND.node) return field === "start" || field === "end" || attributes(tree, row).some(([name]) => name === field);
  if (field === "start" || field === "end") return true;
  if (kind !== KIND.number) return false;
  return /^U64/.test(tree.names[tree.named[row]]) ? field === "hi" || field === "lo" : field === "val";
}

/**
 * The rows that a path picks, in its order.
 * @param {Columns} tree
 * @param {string} path
 */
export function picked(tree, path) {
  const made = path_of(path);
  if (!made) return "no path";
  let rows = [0];
  for (const step of made.steps) {
    /** @type {number[]} */
    const found = [];
    for (const row of rows) add_stepped(tree, row, step, found);
    if (found.length > MOST_PICKED) return "too many";
    rows = found;
  }
  const { field } = made;
  return field === null ? rows : rows.filter((row) => has(tree, row, field));
}
