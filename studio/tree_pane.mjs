/* The tree: rows that can be closed, keys, a search, and marks. */
import { Scroller, element } from "./scroller.mjs";
import { KIND, name_text, value_text } from "./columns.mjs";

/** @typedef {import("./columns.mjs").Columns} Columns */

const STEPS = /** @type {Record<string, number>} */ ({ ArrowDown: 1, ArrowUp: -1, PageDown: 20, PageUp: -20, Home: -Infinity, End: Infinity });
const MANY = 5000; // a tree of more rows begins closed below its second level
const SLICE = 20000; // rows that a search looks at before it lets others go first
const NONE = new Uint8Array(0);

/**
 * Colours are few: a rule has the one of its number.
 * @param {Columns} tree
 * @param {number} row a leaf
 */
export const colour_of = (tree, row) => tree.named[tree.parents[row]] % 8;

export class TreePane {
  /**
   * @param {HTMLElement} pane
   * @param {{ pick(row: number): void, define(row: number): void }} told
   */
  constructor(pane, told) {
    this.pane = pane;
    this.told = told;
    /** @type {Columns | null} */
    this.tree = null;
    this.bytes = NONE;
    this.closed = NONE;
    this.shown = new Uint32Array(0);
    this.picked = -1;
    /** @type {Set<number>} */
    this.marked = new Set();
    this.scroller = new Scroller(pane, (place) => this.#row(place));
    pane.addEventListener("click", (event) => this.#clicked(event));
    pane.addEventListener("keydown", (event) => this.#pressed(event));
    pane.addEventListener("dblclick", () => this.picked >= 0 && this.told.define(this.picked));
  }

  /** @param {Columns | null} tree @param {Uint8Array} bytes */
  show(tree, bytes) {
    const stays = tree && this.tree && tree.count === this.tree.count && this.closed.length === tree.count;
    if (!stays) {
      this.closed = new Uint8Array(tree?.count ?? 0);
      if (tree && tree.count > MANY) for (let row = 0; row < tree.count; row++) this.closed[row] = Number(tree.depths[row] >= 2 && this.#holds(tree, row));
      this.picked = -1;
    }
    [this.tree, this.bytes] = [tree, bytes];
    this.marked.clear();
    this.refresh();
  }

  /** @param {Columns} tree @param {number} row */
  #holds(tree, row) {
    return tree.behind[row] > row + 1;
  }

  refresh() {
    const { tree, closed } = this;
    let count = 0;
    const shown = new Uint32Array(tree?.count ?? 0);
    if (tree) for (let row = 0; row < tree.count; row = closed[row] ? tree.behind[row] : row + 1) shown[count++] = row;
    this.shown = shown.subarray(0, count);
    this.scroller.set_count(count);
  }

  /**
   * Where a row is among those that are shown, or -1.
   * @param {number} row
   */
  place(row) {
    let [low, high] = [0, this.shown.length];
    while (low < high) {
      const middle = (low + high) >>> 1;
      if (this.shown[middle] < row) low = middle + 1;
      else high = middle;
    }
    return this.shown[low] === row ? low : -1;
  }

  /** @param {number} place */
  #row(place) {
    const tree = /** @type {Columns} */ (this.tree);
    const row = this.shown[place];
    const line = element("div", `row${row === this.picked ? " picked" : ""}${this.marked.has(row) ? " marked" : ""}`);
    line.id = `row${row}`;
    line.dataset.row = String(row);
    line.setAttribute("role", "treeitem");
    line.setAttribute("aria-level", String(tree.depths[row] + 1));
    line.setAttribute("aria-selected", String(row === this.picked));
    const holds = this.#holds(tree, row);
    if (holds) line.setAttribute("aria-expanded", String(!this.closed[row]));
    const toggle = element("span", "toggle", holds ? (this.closed[row] ? "\u25b8" : "\u25be") : "");
    toggle.style.marginLeft = `${14 * Math.min(tree.depths[row], 40)}px`;
    const colour = tree.kinds[row] > KIND.node && tree.kinds[row] < KIND.array ? ` c${colour_of(tree, row)}` : "";
    line.append(toggle, element("b", colour, name_text(tree, row)), element("span", "soft", ` ${tree.starts[row]}\u2013${tree.ends[row]} `));
    line.append(element("span", "value", value_text(tree, row, this.bytes)));
    return line;
  }

  /** @param {number} row */
  pick(row) {
    const { tree } = this;
    if (!tree || row < 0 || row >= tree.count) return;
    this.picked = row;
    this.open(row);
    this.pane.setAttribute("aria-activedescendant", `row${row}`);
    this.scroller.renew();
    this.scroller.bring(this.place(row));
  }

  leave() {
    this.picked = -1;
    this.pane.removeAttribute("aria-activedescendant");
    this.scroller.renew();
  }

  /**
   * Opens all that a row lies in.
   * @param {number} row
   */
  open(row) {
    const tree = /** @type {Columns} */ (this.tree);
    let is_changed = false;
    for (let at = row; tree.parents[at] !== at; at = tree.parents[at]) {
      if (this.closed[tree.parents[at]]) is_changed = true;
      this.closed[tree.parents[at]] = 0;
    }
    if (is_changed) this.refresh();
  }

  /** @param {number} row */
  toggle(row) {
    if (!this.tree || !this.#holds(this.tree, row)) return;
    this.closed[row] = this.closed[row] ? 0 : 1;
    this.refresh();
  }

  /** @param {number[]} rows */
  mark(rows) {
    this.marked = new Set(rows);
    this.scroller.renew();
  }

  /** @param {MouseEvent} event */
  #clicked(event) {
    const target = /** @type {HTMLElement} */ (event.target);
    const line = /** @type {HTMLElement | null} */ (target.closest(".row"));
    if (!line) return;
    const row = Number(line.dataset.row);
    if (target.className === "toggle") this.toggle(row);
    else this.told.pick(row);
  }

  /** @param {KeyboardEvent} event */
  #pressed(event) {
    if (!this.tree || event.ctrlKey || event.metaKey || event.altKey || !this.#moved(event.key)) return;
    event.preventDefault();
  }

  /**
   * Whether a key means something here.
   * @param {string} key
   */
  #moved(key) {
    const tree = /** @type {Columns} */ (this.tree);
    const row = this.picked;
    if (key in STEPS) {
      const place = row < 0 ? -1 : this.place(row);
      this.told.pick(this.shown[Math.min(this.shown.length - 1, Math.max(0, place + STEPS[key]))]);
    } else if (row < 0) {
      return false;
    } else if (key === "ArrowLeft") {
      if (this.#holds(tree, row) && !this.closed[row]) this.toggle(row);
      else this.told.pick(tree.parents[row]);
    } else if (key === "ArrowRight") {
      if (this.closed[row]) this.toggle(row);
      else if (this.#holds(tree, row)) this.told.pick(row + 1);
    } else if (key === "Enter") {
      this.told.define(row);
    } else {
      return false;
    }
    return true;
  }

  /**
   * The next row whose name or value has the text, from the picked one on and round; -1 where there is none, or the tree changed.
   * @param {string} text
   * @param {1 | -1} step
   */
  async find(text, step) {
    const { tree, bytes } = this;
    const wanted = text.toLowerCase();
    if (!tree || !wanted) return -1;
    const is_named = tree.names.map((name) => name.toLowerCase().includes(wanted));
    let row = this.picked;
    for (let left = tree.count; left > 0; left--) {
      row = (row + step + tree.count) % tree.count;
      if (is_named[tree.named[row]] || value_text(tree, row, bytes).toLowerCase().includes(wanted) || number_has(tree, row, wanted)) return row;
      if (left % SLICE === 0) await new Promise((done) => setTimeout(done));
      if (this.tree !== tree) return -1;
    }
    return -1;
  }
}

/**
 * A number is found by its hexadecimal digits too.
 * @param {Columns} tree
 * @param {number} row
 * @param {string} wanted
 */
function number_has(tree, row, wanted) {
  if (!wanted.startsWith("0x") || tree.kinds[row] !== KIND.number) return false;
  const half = tree.low[row].toString(16);
  return `0x${tree.high[row] ? tree.high[row].toString(16) + half.padStart(8, "0") : half}` === wanted;
}

