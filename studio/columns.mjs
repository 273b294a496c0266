/* A tree as columns of numbers, a row for each node, leaf, array and repetition in the order of the printed lines. Made in the worker of the
 * library's rows, or of the text that `ipg json` writes; shown by the page. */

/**
 * @typedef {object} Columns
 * @property {string[]} names what `named` counts
 * @property {number} count
 * @property {Uint8Array} kinds
 * @property {Uint32Array} named a name by its number: the rule, the primitive, or the symbol of items
 * @property {Uint32Array} depths
 * @property {Uint32Array} parents the row itself where it has none
 * @property {Uint32Array} behind the first row that doesn't lie in this one
 * @property {Uint32Array} from the interval
 * @property {Uint32Array} to
 * @property {Uint32Array} starts the bytes of its own: what a node touches, those that a leaf was read from, those of all items
 * @property {Uint32Array} ends
 * @property {Uint32Array} high a number's halves
 * @property {Uint32Array} low of a string its length, of an array how many items it has
 * @property {Uint32Array} firsts where a row's attributes begin; one more than there are rows
 * @property {Uint32Array} keys an attribute's name, by its number in `names`
 * @property {BigInt64Array} values
 * @property {Segments} segments
 */

/**
 * Runs of bytes, each from its place up to that of the next one, with the leaf that has them; NOBODY where none has.
 * @typedef {{ starts: Uint32Array, rows: Uint32Array }} Segments
 */

export const KIND = { node: 0, terminal: 2, number: 3, raw: 4, array: 5, repetition: 6 };
export const NOBODY = 0xffffffff;
const PRIMITIVES = ["U8", "U16LE", "U16BE", "U32LE", "U32BE", "U64LE", "U64BE", "Bytes", "tok"];
const WIDTHS = [1, 2, 2, 4, 4, 8, 8];
const ROW_WORDS = 18;
const ROW_LONGS = 9;

/**
 * @param {number} count
 * @param {number} attributes
 * @param {string[]} names
 * @returns {Columns}
 */
function blank(count, attributes, names) {
  const column = () => new Uint32Array(count);
  return {
    names, count, kinds: new Uint8Array(count), named: column(), depths: column(), parents: column(), behind: column(),
    from: column(), to: column(), starts: column(), ends: column(), high: column(), low: column(),
    firsts: new Uint32Array(count + 1), keys: new Uint32Array(attributes), values: new BigInt64Array(attributes),
    segments: { starts: new Uint32Array(0), rows: new Uint32Array(0) },
  };
}

/**
 * The buffers of a tree, to be handed over without a copy.
 * @param {Columns} tree
 */
export function buffers_of(tree) {
  const { kinds, named, depths, parents, behind, from, to, starts, ends, high, low, firsts, keys, values, segments } = tree;
  const all = [kinds, named, depths, parents, behind, from, to, starts, ends, high, low, firsts, keys, values, segments.starts, segments.rows];
  return all.map((column) => column.buffer);
}

/**
 * Columns of the library's rows (`ipg_row` of its header).
 * @param {readonly string[]} rules
 * @param {readonly string[]} attributes
 * @param {Uint32Array} words
 * @param {BigInt64Array} longs
 * @param {(tree: Columns) => void} measure puts the lengths of strings into `low`, where they are shorter than their intervals
 * @returns {Columns}
 */
export function columns_of_rows(rules, attributes, words, longs, measure) {
  const rows = words.length / ROW_WORDS;
  let count = 0;
  for (let i = 0; i < rows; i++) if (words[ROW_WORDS * i] !== 1) count++;
  const tree = blank(count, rows - count, [...rules, ...PRIMITIVES, ...attributes]);
  const bases = [0, rules.length, rules.length + PRIMITIVES.length - 1];
  const keys = rules.length + PRIMITIVES.length;
  let row = 0;
  let key = 0;
  for (let i = 0; i < rows; i++) {
    const at = ROW_WORDS * i;
    if (words[at] === 1) {
      tree.keys[key] = keys + words[at + 2];
      tree.values[key++] = longs[ROW_LONGS * i + 8];
      continue;
    }
    tree.firsts[row] = key;
    tree.kinds[row] = words[at];
    tree.named[row] = bases[words[at + 1]] + words[at + 2];
    tree.high[row] = words[at + 3];
    tree.low[row] = words[at + 4];
    tree.depths[row] = words[at + 6];
    tree.from[row] = words[at + 8];
    tree.to[row] = words[at + 10];
    tree.starts[row] = words[at + 12];
    tree.ends[row] = words[at + 14];
    if (tree.kinds[row] === KIND.terminal) tree.low[row] = tree.to[row] - tree.from[row];
    row++;
  }
  tree.firsts[count] = key;
  measure(tree);
  return finished(tree, rules.length);
}

/**
 * Columns of what `ipg json` wrote. No depth is recursed on.
 * @param {any} root
 * @returns {Columns}
 */
export function columns_of_json(root) {
  const { things, keys } = flattened(root);
  const { names, number_of } = numbered();
  const tree = blank(things.length, keys, names);
  let key = 0;
  things.forEach(([thing, depth], row) => {
    tree.depths[row] = depth;
    tree.firsts[row] = key;
    [tree.from[row], tree.to[row]] = [thing.from ?? 0, thing.to ?? 0];
    [tree.starts[row], tree.ends[row]] = [thing.start ?? 0, thing.end ?? 0];
    [tree.kinds[row], tree.named[row]] = [kind_of(thing), number_of(thing.rule ?? thing.prim ?? thing.for ?? thing.many)];
    [tree.high[row], tree.low[row]] = [thing.hi ?? 0, thing.lo ?? thing.val ?? 0];
    if (thing.prim === "tok") tree.low[row] = thing.hex.length / 2;
    for (const [name, value] of Object.entries(thing.attrs ?? {})) {
      tree.keys[key] = number_of(name, "=");
      tree.values[key++] = BigInt(value);
    }
  });
  tree.firsts[things.length] = key;
  return finished(tree, PRIMITIVES.indexOf("U8"));
}

/** @param {any} root */
function flattened(root) {
  /** @type {[any, number][]} */
  const things = [];
  /** @type {[any, number][]} */
  const left = [[root, 0]];
  let keys = 0;
  for (let next = left.pop(); next; next = left.pop()) {
    const [thing, depth] = next;
    if (typeof thing !== "object" || thing === null) throw new TypeError("no tree of ipg json");
    things.push(next);
    keys += Object.keys(thing.attrs ?? {}).length;
    const inside = thing.kids ?? thing.items ?? [];
    for (let i = inside.length - 1; i >= 0; i--) left.push([inside[i], depth + 1]);
  }
  return { things, keys };
}

/** Numbers for names, the primitives first; names of one spelling may be told apart by `room`. */
function numbered() {
  const names = [...PRIMITIVES];
  const numbers = new Map(names.map((name, i) => [name, i]));
  /** @param {string} name @param {string} [room] */
  const number_of = (name, room = "") => {
    const known = numbers.get(room + name);
    if (known !== undefined) return known;
    numbers.set(room + name, names.length);
    return names.push(String(name)) - 1;
  };
  return { names, number_of };
}

/** @param {any} thing */
function kind_of(thing) {
  if ("rule" in thing) return KIND.node;
  if ("for" in thing) return KIND.array;
  if ("many" in thing) return KIND.repetition;
  if (thing.prim === "tok") return KIND.terminal;
  if (thing.prim === "Bytes") return KIND.raw;
  if (PRIMITIVES.includes(thing.prim)) return KIND.number;
  throw new TypeError("no tree of ipg json");
}

/**
 * What follows from the rest: parents, ends, bytes of one's own. `base` is the number of the name `U8`.
 * @param {Columns} tree
 * @param {number} base
 */
function finished(tree, base) {
  /** @type {number[]} */
  const open = [];
  for (let row = 0; row < tree.count; row++) {
    while (open.length && tree.depths[open[open.length - 1]] >= tree.depths[row]) tree.behind[/** @type {number} */ (open.pop())] = row;
    tree.parents[row] = open.length ? open[open.length - 1] : row;
    open.push(row);
    own_bytes(tree, row, base);
  }
  for (const row of open) tree.behind[row] = tree.count;
  widen_items(tree);
  tree.segments = segments_of(tree);
  return tree;
}

/** @param {Columns} tree @param {number} row @param {number} base */
function own_bytes(tree, row, base) {
  const [from, to] = [tree.from[row], tree.to[row]];
  const kind = tree.kinds[row];
  if (kind === KIND.node) {
    if (tree.starts[row] >= tree.ends[row]) tree.starts[row] = tree.ends[row] = from;
  } else if (kind >= KIND.array) {
    tree.starts[row] = tree.ends[row] = 0;
  } else {
    tree.starts[row] = from;
    tree.ends[row] = kind === KIND.number ? from + WIDTHS[tree.named[row] - base] : kind === KIND.terminal ? from + tree.low[row] : to;
  }
}

/**
 * Arrays and repetitions have the bytes of their items, and how many these are stands in `low`.
 * @param {Columns} tree
 */
function widen_items(tree) {
  for (let row = tree.count - 1; row > 0; row--) {
    const holder = tree.parents[row];
    if (tree.kinds[holder] < KIND.array) continue;
    tree.low[holder]++;
    if (tree.starts[row] >= tree.ends[row]) continue;
    const is_first = tree.starts[holder] === tree.ends[holder];
    tree.starts[holder] = is_first ? tree.starts[row] : Math.min(tree.starts[holder], tree.starts[row]);
    tree.ends[holder] = Math.max(tree.ends[holder], tree.ends[row]);
  }
}

/** @param {Columns} tree @param {number} row */
export const is_leaf = (tree, row) => tree.kinds[row] >= KIND.terminal && tree.kinds[row] <= KIND.raw;

/**
 * Which leaf has which bytes: of several the smallest one, of equal ones the last.
 * @param {Columns} tree
 * @returns {Segments}
 */
function segments_of(tree) {
  const leaves = new Uint32Array(tree.count);
  let count = 0;
  let [is_sorted, is_apart] = [true, true];
  for (let row = 0, last = 0; row < tree.count; row++) {
    if (!is_leaf(tree, row) || tree.starts[row] >= tree.ends[row]) continue;
    is_sorted &&= count === 0 || tree.starts[leaves[count - 1]] <= tree.starts[row];
    is_apart &&= last <= tree.starts[row];
    last = tree.ends[row];
    leaves[count++] = row;
  }
  const all = leaves.subarray(0, count);
  if (!is_sorted) all.sort((a, b) => tree.starts[a] - tree.starts[b] || a - b);
  const parts = runs(2 * (is_apart ? count : 2 * count) + 1);
  if (is_apart) for (const row of all) parts.add(tree.starts[row], tree.ends[row], row);
  else sweep(tree, all, parts.add);
  return parts.segments();
}

/**
 * Segments as they come, in order and apart; what lies between two has no leaf.
 * @param {number} most
 */
function runs(most) {
  const [starts, rows] = [new Uint32Array(most), new Uint32Array(most)];
  let [count, end] = [0, 0];
  const put = (/** @type {number} */ from, /** @type {number} */ row) => {
    starts[count] = from;
    rows[count++] = row;
  };
  return {
    add(/** @type {number} */ from, /** @type {number} */ to, /** @type {number} */ row) {
      if (from > end) put(end, NOBODY);
      put(from, row);
      end = to;
    },
    segments() {
      put(end, NOBODY);
      return { starts: starts.slice(0, count), rows: rows.slice(0, count) };
    },
  };
}

/**
 * Leaves that share bytes, cut at each place where one begins or ends.
 * @param {Columns} tree
 * @param {Uint32Array} leaves in the order of their places
 * @param {(from: number, to: number, row: number) => void} add
 */
function sweep(tree, leaves, add) {
  const size = (/** @type {number} */ row) => tree.ends[row] - tree.starts[row];
  const open = heap((a, b) => size(a) < size(b) || (size(a) === size(b) && a > b));
  const cuts = new Uint32Array(2 * leaves.length);
  leaves.forEach((row, i) => cuts.set([tree.starts[row], tree.ends[row]], 2 * i));
  cuts.sort();
  let next = 0;
  for (let i = 0; i + 1 < cuts.length; i++) {
    const [from, to] = [cuts[i], cuts[i + 1]];
    if (from === to) continue;
    while (next < leaves.length && tree.starts[leaves[next]] <= from) open.push(leaves[next++]);
    while (open.top() !== undefined && tree.ends[/** @type {number} */ (open.top())] <= from) open.pop();
    const row = open.top();
    if (row !== undefined) add(from, to, row);
  }
}

/**
 * A heap whose top is before all others.
 * @param {(a: number, b: number) => boolean} is_before
 */
function heap(is_before) {
  /** @type {number[]} */
  const items = [];
  const swap = (/** @type {number} */ i, /** @type {number} */ k) => ([items[i], items[k]] = [items[k], items[i]]);
  const sink = () => {
    for (let i = 0, k = 1; k < items.length; i = k, k = 2 * i + 1) {
      if (k + 1 < items.length && is_before(items[k + 1], items[k])) k++;
      if (!is_before(items[k], items[i])) return;
      swap(i, k);
    }
  };
  return {
    top: () => /** @type {number | undefined} */ (items[0]),
    push(/** @type {number} */ item) {
      let i = items.push(item) - 1;
      for (let up = (i - 1) >> 1; i > 0 && is_before(items[i], items[up]); i = up, up = (i - 1) >> 1) swap(i, up);
    },
    pop() {
      const last = items.pop();
      if (items.length && last !== undefined) {
        items[0] = last;
        sink();
      }
    },
  };
}

/**
 * The segment that has a byte.
 * @param {Segments} segments
 * @param {number} byte
 */
export function segment_at({ starts }, byte) {
  let [low, high] = [0, starts.length];
  while (low < high) {
    const middle = (low + high) >>> 1;
    if (starts[middle] <= byte) low = middle + 1;
    else high = middle;
  }
  return low - 1;
}

/**
 * The leaf that has a byte, or NOBODY.
 * @param {Segments} segments
 * @param {number} byte
 */
export const leaf_at = (segments, byte) => (segments.rows.length ? segments.rows[Math.max(0, segment_at(segments, byte))] : NOBODY);

/**
 * The smallest part that has the byte, arrays and repetitions apart; of equal ones the innermost.
 * @param {Columns} tree
 * @param {number} byte
 */
export function innermost(tree, byte) {
  let [best, size] = [-1, Infinity];
  for (let row = 0; row < tree.count; row++) {
    if (tree.starts[row] > byte || byte >= tree.ends[row] || tree.kinds[row] >= KIND.array) continue;
    if (tree.ends[row] - tree.starts[row] > size) continue;
    [best, size] = [row, tree.ends[row] - tree.starts[row]];
  }
  return best;
}

/**
 * A number's value.
 * @param {Columns} tree
 * @param {number} row
 */
export const number_at = (tree, row) => (BigInt(tree.high[row]) << 32n) | BigInt(tree.low[row]);

/** @param {Columns} tree @param {number} row @returns {[string, bigint][]} */
export function attributes(tree, row) {
  const found = /** @type {[string, bigint][]} */ ([]);
  for (let k = tree.firsts[row]; k < tree.firsts[row + 1]; k++) found.push([tree.names[tree.keys[k]], tree.values[k]]);
  return found;
}

/**
 * Up to 48 bytes as digits.
 * @param {Uint8Array} bytes
 */
export const hex_of = (bytes) => [...bytes.subarray(0, 48)].map((byte) => byte.toString(16).padStart(2, "0")).join("");

/**
 * A number of several letters is told as these too.
 * @param {Uint8Array} bytes
 */
const letters = (bytes) => (bytes.length > 2 && bytes.every((byte) => byte >= 32 && byte < 127) ? ` \u201c${String.fromCharCode(...bytes)}\u201d` : "");

/**
 * What stands in a row, in a few characters.
 * @param {Columns} tree
 * @param {number} row
 * @param {Uint8Array} bytes
 */
export function value_text(tree, row, bytes) {
  const kind = tree.kinds[row];
  if (kind === KIND.node) return attributes(tree, row).map(([name, value]) => `${name}=${value}`).join(" ");
  if (kind === KIND.number) return `${number_at(tree, row)}${letters(bytes.subarray(tree.starts[row], tree.ends[row]))}`;
  if (kind >= KIND.array) return `\u00d7 ${tree.low[row]}`;
  const own = bytes.subarray(tree.starts[row], Math.min(tree.ends[row], tree.starts[row] + 16));
  const more = tree.ends[row] - tree.starts[row] - own.length;
  const text = [...own].map((byte) => (byte >= 32 && byte < 127 ? String.fromCharCode(byte) : "\u00b7")).join("");
  return own.length ? `\u201c${text}\u201d${more > 0 ? ` +${more}` : ""}` : "";
}

/** @param {Columns} tree @param {number} row */
export function name_text(tree, row) {
  const name = tree.names[tree.named[row]];
  return tree.kinds[row] < KIND.array ? name : `${tree.kinds[row] === KIND.array ? "for" : "many"} ${name}`;
}
