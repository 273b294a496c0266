/* The bytes: lines of sixteen, in the colours of the leaves that have them, a cursor that changes them, and a strip of the whole file. */
import { Scroller, element } from "./scroller.mjs";
import { NOBODY, leaf_at, segment_at } from "./columns.mjs";
import { colour_of } from "./tree_pane.mjs";

/** @typedef {import("./columns.mjs").Columns} Columns */

const PER_LINE = 16;
const STEPS = /** @type {Record<string, number>} */ ({ ArrowLeft: -1, ArrowRight: 1, ArrowUp: -PER_LINE, ArrowDown: PER_LINE, PageUp: -320, PageDown: 320,
  Home: -Infinity, End: Infinity });
const COLOURS = ["#4e79a7", "#f28e2b", "#59a14f", "#b07aa1", "#e15759", "#76b7b2", "#c9a227", "#9c755f"];
const GREY = "#8884";

/** @param {number} byte */
const letter = (byte) => (byte >= 32 && byte < 127 ? String.fromCharCode(byte) : "\u00b7");
/** @param {number} number @param {number} width */
const hex = (number, width) => number.toString(16).padStart(width, "0");

export class BytePane {
  /**
   * @param {HTMLElement} pane
   * @param {HTMLCanvasElement} strip
   * @param {{ pick(byte: number): void, change(at: number, value: number): void, undo(): void }} told
   */
  constructor(pane, strip, told) {
    this.pane = pane;
    this.strip = strip;
    this.told = told;
    /** @type {Columns | null} */
    this.tree = null;
    this.bytes = new Uint8Array(0);
    this.marked = [0, 0];
    this.cursor = -1;
    this.fault = -1;
    this.digit = "";
    this.scroller = new Scroller(pane, (place) => this.#row(place));
    pane.addEventListener("click", (event) => this.#clicked(event));
    pane.addEventListener("keydown", (event) => this.#pressed(event));
    strip.addEventListener("click", (event) => this.#jumped(event));
    new ResizeObserver(() => this.#paint()).observe(strip);
  }

  /** @param {Uint8Array} bytes @param {Columns | null} tree @param {number} fault the byte at which a parse failed, or -1 */
  show(bytes, tree, fault) {
    [this.bytes, this.tree, this.fault] = [bytes, tree, fault];
    if (this.cursor >= bytes.length) this.cursor = -1;
    this.scroller.set_count(Math.ceil(bytes.length / PER_LINE));
    this.#paint();
  }

  /** @param {number} from @param {number} to */
  mark(from, to) {
    this.marked = [from, to];
    if (from < to || from < this.bytes.length) this.bring(from);
    this.#paint();
  }

  /** @param {number} byte */
  bring(byte) {
    this.scroller.bring(Math.floor(byte / PER_LINE));
  }

  /** @param {number} byte */
  #class_of(byte) {
    const [from, to] = this.marked;
    const row = this.tree ? leaf_at(this.tree.segments, byte) : NOBODY;
    const colour = row === NOBODY || !this.tree ? "none" : `c${colour_of(this.tree, row)}${row % 2 ? " odd" : ""}`;
    const marks = [from <= byte && byte < to && "in", byte === this.cursor && "cursor", byte === this.fault && "fault"];
    return [colour, ...marks.filter(Boolean)].join(" ");
  }

  /** @param {number} place */
  #row(place) {
    const line = element("div", "row");
    const first = place * PER_LINE;
    const end = Math.min(first + PER_LINE, this.bytes.length);
    line.append(element("span", "soft", `${hex(first, 8)}  `));
    /** @type {HTMLElement[]} */
    const letters = [];
    let last = "";
    for (let at = first; at < end; at++) {
      const name = this.#class_of(at);
      const byte = element("span", `byte ${name}`, hex(this.bytes[at], 2));
      byte.dataset.at = String(at);
      line.append(byte, at % 8 === 7 ? "  " : " ");
      if (name === last) {
        letters[letters.length - 1].append(letter(this.bytes[at]));
        continue;
      }
      const text = element("span", `text ${name}`, letter(this.bytes[at]));
      text.dataset.at = String(at);
      letters.push(text);
      last = name;
    }
    const gap = first + PER_LINE - end;
    line.append(" ".repeat(3 * gap + (gap > 8 ? 2 : gap > 0 ? 1 : 0)), ...letters);
    return line;
  }

  /**
   * Letters of one colour are one element.
   * @param {MouseEvent} event
   */
  #clicked(event) {
    const target = /** @type {HTMLElement} */ (event.target);
    if (target.dataset.at === undefined) return;
    const count = target.classList.contains("text") ? target.textContent?.length ?? 1 : 1;
    const { x, width } = target.getBoundingClientRect();
    this.go(Number(target.dataset.at) + Math.max(0, Math.min(count - 1, Math.floor(((event.clientX - x) * count) / width))));
  }

  /**
   * Puts the cursor on a byte.
   * @param {number} byte
   */
  go(byte) {
    this.cursor = Math.max(0, Math.min(byte, this.bytes.length - 1));
    this.digit = "";
    this.told.pick(this.cursor);
    this.bring(this.cursor);
  }

  /** @param {KeyboardEvent} event */
  #pressed(event) {
    if (!this.bytes.length || event.altKey) return;
    if ((event.ctrlKey || event.metaKey) && event.key === "z") this.told.undo();
    else if (event.ctrlKey || event.metaKey) return;
    else if (event.key in STEPS) this.go(this.cursor + STEPS[event.key]);
    else if (/^[0-9a-fA-F]$/.test(event.key) && this.cursor >= 0) this.#typed(event.key);
    else if (event.key === "Escape") this.digit = "";
    else return;
    event.preventDefault();
  }

  /**
   * Two digits make a byte.
   * @param {string} digit
   */
  #typed(digit) {
    const [at, digits] = [this.cursor, this.digit + digit];
    if (digits.length < 2) {
      this.digit = digits;
      return;
    }
    this.told.change(at, parseInt(digits, 16));
    this.go(at + 1);
  }

  /** @param {MouseEvent} event */
  #jumped(event) {
    if (!this.bytes.length) return;
    const byte = Math.floor((event.offsetY / this.strip.clientHeight) * this.bytes.length);
    this.go(byte);
  }

  /** The strip: a line of pixels for each run of bytes, in the colour of the leaf that has most of it. */
  #paint() {
    this.scroller.renew();
    const { strip, bytes } = this;
    const height = (strip.height = Math.max(1, strip.clientHeight));
    const width = (strip.width = Math.max(1, strip.clientWidth));
    const context = strip.getContext("2d");
    if (!context || !bytes.length) return;
    for (let line = 0; line < height; line++) {
      context.fillStyle = this.#colour_between((line * bytes.length) / height, ((line + 1) * bytes.length) / height);
      context.fillRect(0, line, width - 4, 1);
    }
    const [from, to] = this.marked.map((byte) => (byte * height) / bytes.length);
    context.fillStyle = "#ffd33d";
    if (this.marked[0] < this.marked[1]) context.fillRect(width - 4, from, 4, Math.max(2, to - from));
    context.fillStyle = "#e00";
    if (this.fault >= 0) context.fillRect(0, Math.min(height - 2, (this.fault * height) / bytes.length), width, 2);
  }

  /** @param {number} from @param {number} to */
  #colour_between(from, to) {
    const { tree } = this;
    if (!tree) return GREY;
    const { starts, rows } = tree.segments;
    let [best, most] = [NOBODY, 0];
    for (let i = Math.max(0, segment_at(tree.segments, Math.floor(from))), seen = 0; i < starts.length && starts[i] < to && seen < 64; i++, seen++) {
      const share = Math.min(to, starts[i + 1] ?? this.bytes.length) - Math.max(from, starts[i]);
      if (share > most) [best, most] = [rows[i], share];
    }
    return best === NOBODY ? GREY : COLOURS[colour_of(tree, best)];
  }
}

