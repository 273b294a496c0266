/* The grammar: a text area, and below its letters a layer of the same lines in colours. Only the lines that are seen are made. Above it lie
 * marks, arrows of a cycle, and a list of what a word may become. */
import { LINE, element } from "./scroller.mjs";
import { LONG_LINE, characters, completions, place_of, tokens } from "./lexer.mjs";

/** @typedef {import("./report.mjs").Place} Place */
/** @typedef {{ at: Place, rule: string, lines: string[] }} Arrow */

const LEFT = 52; // room for the numbers of lines
const SVG = "http://www.w3.org/2000/svg";

/** @param {string} kind @param {Record<string, string | number>} words */
function drawn(kind, words) {
  const made = document.createElementNS(SVG, kind);
  for (const [name, value] of Object.entries(words)) made.setAttribute(name, String(value));
  return made;
}

export class Editor {
  /**
   * @param {HTMLElement} box
   * @param {(text: string) => void} changed
   */
  constructor(box, changed) {
    this.text = /** @type {HTMLTextAreaElement} */ (box.querySelector("textarea"));
    this.colours = /** @type {HTMLElement} */ (box.querySelector(".colours"));
    this.arrows = /** @type {SVGSVGElement} */ (box.querySelector("svg"));
    this.list = /** @type {HTMLElement} */ (box.querySelector(".names"));
    this.changed = changed;
    /** @type {Place[]} */
    this.faults = [];
    /** @type {Arrow[]} */
    this.cycle = [];
    this.here = -1;
    this.chosen = 0;
    /** @type {string[]} */
    this.lines = [""];
    this.text.addEventListener("input", () => this.#typed());
    this.text.addEventListener("scroll", () => this.draw());
    this.text.addEventListener("blur", () => this.#close());
    this.text.addEventListener("keydown", (event) => this.#pressed(event));
    this.list.addEventListener("mousedown", (event) => this.#clicked(event));
    this.is_due = false;
    this.letter = 8;
    new ResizeObserver(() => this.#measure()).observe(box);
  }

  get value() {
    return this.text.value;
  }

  /** @param {string} text */
  set value(text) {
    this.text.value = text;
    this.text.setSelectionRange(0, 0);
    this.text.scrollTop = 0;
    this.#read();
  }

  #read() {
    this.lines = this.text.value.split("\n");
    this.faults = [];
    this.cycle = [];
    this.here = -1;
    this.draw();
  }

  #typed() {
    this.#read();
    this.#offer(false);
    this.changed(this.text.value);
  }

  /** The width of a letter: all have one. */
  #measure() {
    const probe = element("span", "probe", "x".repeat(100));
    this.colours.append(probe);
    this.letter = probe.getBoundingClientRect().width / 100 || 8;
    this.draw();
  }

  /** With the next frame, so that what changes together is drawn once. */
  draw() {
    if (this.is_due) return;
    this.is_due = true;
    requestAnimationFrame(() => this.#draw_now());
  }

  #draw_now() {
    this.is_due = false;
    const first = Math.floor(this.text.scrollTop / LINE);
    const end = Math.min(this.lines.length, first + Math.ceil(this.text.clientHeight / LINE) + 1);
    const made = [];
    for (let i = first; i < end; i++) made.push(this.#line(i));
    this.colours.replaceChildren(...made);
    this.#draw_cycle();
  }

  /** @param {number} i */
  #line(i) {
    const row = element("div", `line${i === this.here ? " here" : ""}`);
    row.style.top = `${i * LINE - this.text.scrollTop}px`;
    const code = element("span", "code");
    code.style.transform = `translateX(${-this.text.scrollLeft}px)`;
    const faults = this.faults.filter(({ line }) => line === i).map(({ column }) => characters(this.lines[i], column));
    let at = 0;
    for (const { text, kind } of tokens(this.lines[i].slice(0, LONG_LINE))) {
      const [from, to] = [at, at + text.length];
      const is_fault = faults.some((column) => from <= column && column < to);
      code.append(element("span", is_fault ? `${kind} wrong` : kind, text));
      at = to;
    }
    if (faults.some((column) => column >= at)) code.append(element("span", "wrong", " "));
    row.append(element("span", "number", String(i + 1)), code);
    return row;
  }

  /**
   * Marks places.
   * @param {Place[]} places
   */
  fault(places) {
    this.faults = places;
    this.draw();
  }

  /** @param {Arrow[]} arrows */
  round(arrows) {
    this.cycle = arrows;
    this.draw();
  }

  /**
   * Where a place is in the box.
   * @param {Place} place
   */
  #point({ line, column }) {
    const x = LEFT + characters(this.lines[line] ?? "", column) * this.letter - this.text.scrollLeft;
    return { x, y: line * LINE - this.text.scrollTop + LINE / 2 };
  }

  /** The arrows of a cycle, from each call to the next one, with the values that let it go round. */
  #draw_cycle() {
    const made = [];
    if (this.cycle.length) {
      const calls = this.cycle.map(({ at }) => {
        const { x, y } = this.#point(at);
        const [name] = /^\w*/.exec((this.lines[at.line] ?? "").slice(characters(this.lines[at.line] ?? "", at.column))) ?? [""];
        return { x: x + this.letter * name.length + 2, y };
      });
      const tip = drawn("marker", { id: "tip", viewBox: "0 0 8 8", refX: 7, refY: 4, markerWidth: 7, markerHeight: 7, orient: "auto" });
      tip.append(drawn("path", { d: "M0 0 L8 4 L0 8 z" }));
      made.push(tip);
      this.cycle.forEach(({ lines }, i) => made.push(...this.#arrow(calls[i], calls[(i + 1) % calls.length], lines, i)));
    }
    this.arrows.replaceChildren(...made);
  }

  /**
   * @param {{x: number, y: number}} from
   * @param {{x: number, y: number}} to
   * @param {string[]} lines what is told of it
   * @param {number} i
   */
  #arrow(from, to, lines, i) {
    const out = Math.max(from.x, to.x) + 50 + 45 * (i % 4);
    const [begin, end] = from === to ? [from.y - 5, to.y + 6] : [from.y, to.y + 4];
    const path = drawn("path", { d: `M${from.x} ${begin} C${out} ${begin} ${out} ${end} ${to.x} ${end}`, "marker-end": "url(#tip)" });
    const left = Math.max(LEFT, Math.min(out, this.text.clientWidth - 7 * Math.max(...lines.map((line) => line.length))));
    const words = drawn("text", {});
    words.append(...lines.map((line, k) => {
      const made = drawn("tspan", { x: left, y: Math.max(from.y, to.y) + LINE + 15 * k });
      made.textContent = line;
      return made;
    }));
    return [path, words];
  }

  /**
   * Brings a place to where it is seen, and with `is_chosen` the caret too.
   * @param {Place} place
   * @param {boolean} is_chosen
   */
  go({ line, column }, is_chosen) {
    const [top, height] = [this.text.scrollTop, this.text.clientHeight];
    if (line * LINE < top || (line + 1) * LINE > top + height) this.text.scrollTop = Math.max(0, line * LINE - height / 3);
    const x = characters(this.lines[line] ?? "", column) * this.letter;
    if (x < this.text.scrollLeft || x > this.text.scrollLeft + this.text.clientWidth - LEFT - 80) this.text.scrollLeft = Math.max(0, x - 80);
    this.here = line;
    if (is_chosen) {
      const at = this.lines.slice(0, line).reduce((sum, text) => sum + text.length + 1, 0) + characters(this.lines[line] ?? "", column);
      this.text.focus();
      this.text.setSelectionRange(at, at);
    }
    this.draw();
  }

  // ---- what a word may become

  /** @param {boolean} wanted */
  #offer(wanted) {
    const caret = this.text.selectionStart;
    const { word, names } = this.text.selectionEnd === caret ? completions(this.text.value, caret, wanted) : { word: "", names: [] };
    if (!names.length) return this.#close();
    const { line, column } = place_of(this.text.value, caret - word.length);
    const { x, y } = this.#point({ line, column });
    this.word = word;
    this.chosen = 0;
    this.list.style.left = `${Math.max(0, Math.min(x, this.text.clientWidth - 160))}px`;
    this.list.style.top = `${y + LINE / 2}px`;
    this.list.replaceChildren(...names.map((name) => element("div", "", name)));
    this.list.hidden = false;
    this.#choose(0);
  }

  #close() {
    this.list.hidden = true;
    this.text.removeAttribute("aria-activedescendant");
  }

  /** @param {number} i */
  #choose(i) {
    const names = [...this.list.children];
    this.chosen = (i + names.length) % names.length;
    names.forEach((one, k) => {
      one.id = `name${k}`;
      one.setAttribute("role", "option");
      one.setAttribute("aria-selected", String(k === this.chosen));
    });
    this.text.setAttribute("aria-activedescendant", `name${this.chosen}`);
  }

  #take() {
    const name = this.list.children[this.chosen].textContent ?? "";
    const caret = this.text.selectionStart;
    this.text.setRangeText(name, caret - (this.word?.length ?? 0), caret, "end");
    this.#close();
    this.#read();
    this.changed(this.text.value);
  }

  /** @param {MouseEvent} event */
  #clicked(event) {
    event.preventDefault();
    this.#choose([...this.list.children].indexOf(/** @type {Element} */ (event.target)));
    this.#take();
  }

  /** @param {KeyboardEvent} event */
  #pressed(event) {
    if (event.ctrlKey && event.key === " ") this.#offer(true);
    else if (this.list.hidden) return;
    else if (event.key === "ArrowDown") this.#choose(this.chosen + 1);
    else if (event.key === "ArrowUp") this.#choose(this.chosen - 1);
    else if (event.key === "Enter" || event.key === "Tab") this.#take();
    else if (event.key === "Escape") this.#close();
    else return;
    event.preventDefault();
  }
}
