/* A long list of lines of one height, of which only those that are seen are made. */

export const LINE = 20;
const TALLEST = 4000000; // no browser has elements of any height: of a longer list the bar moves by more than it shows

export class Scroller {
  /**
   * @param {HTMLElement} pane
   * @param {(place: number) => HTMLElement} make
   */
  constructor(pane, make) {
    this.pane = pane;
    this.make = make;
    this.count = 0;
    this.top = 0;
    this.is_due = false;
    /** @type {Map<number, HTMLElement>} */
    this.made = new Map();
    this.sheet = document.createElement("div");
    this.sheet.className = "sheet";
    this.tall = document.createElement("div");
    pane.append(this.sheet, this.tall);
    pane.addEventListener("scroll", () => this.#scrolled());
    pane.addEventListener("wheel", (event) => this.#wheeled(event), { passive: false });
    new ResizeObserver(() => this.schedule()).observe(pane);
  }

  /** What lines hold has changed. */
  renew() {
    this.made.clear();
    this.schedule();
  }

  get fits() {
    return Math.max(1, Math.floor(this.pane.clientHeight / LINE));
  }

  get #is_scaled() {
    return this.count * LINE > TALLEST;
  }

  get #last_top() {
    return Math.max(0, this.count - this.pane.clientHeight / LINE);
  }

  /** @param {number} count */
  set_count(count) {
    this.count = count;
    this.made.clear();
    this.tall.style.height = `${Math.min(count * LINE, TALLEST)}px`;
    this.#set_top(this.top);
  }

  /** @param {number} top */
  #set_top(top) {
    this.top = Math.max(0, Math.min(top, this.#last_top));
    const scale = this.#is_scaled ? (TALLEST - this.pane.clientHeight) / this.#last_top : LINE;
    this.ours = Math.round(this.top * scale);
    this.pane.scrollTop = this.ours;
    this.schedule();
  }

  #scrolled() {
    const at = this.pane.scrollTop;
    if (Math.abs(at - (this.ours ?? -9)) > 1) {
      this.top = this.#is_scaled ? (at / (TALLEST - this.pane.clientHeight)) * this.#last_top : at / LINE;
      this.ours = at;
    }
    this.schedule();
  }

  /** @param {WheelEvent} event */
  #wheeled(event) {
    if (!this.#is_scaled || event.ctrlKey || !event.deltaY) return;
    event.preventDefault();
    this.#set_top(this.top + (event.deltaMode === 1 ? event.deltaY : event.deltaY / LINE));
  }

  /**
   * Brings a line to where it is seen.
   * @param {number} place
   */
  bring(place) {
    if (place < this.top || place + 1 > this.top + this.fits) this.#set_top(place - Math.floor(this.fits / 3));
    else this.schedule();
  }

  schedule() {
    if (this.is_due) return;
    this.is_due = true;
    requestAnimationFrame(() => this.draw());
  }

  draw() {
    this.is_due = false;
    const first = Math.floor(this.top);
    const end = Math.min(this.count, first + this.fits + 2);
    for (const [place, row] of this.made) {
      if (place >= first && place < end) continue;
      row.remove();
      this.made.delete(place);
    }
    if (!this.made.size) this.sheet.replaceChildren();
    let before = /** @type {Element | null} */ (null);
    for (let place = first; place < end; place++) {
      /** @type {HTMLElement} */
      const row = this.made.get(place) ?? this.#new(place, before);
      row.style.top = `${(place - this.top) * LINE}px`;
      before = row;
    }
  }

  /**
   * @param {number} place
   * @param {Element | null} before the line above it
   */
  #new(place, before) {
    const row = this.make(place);
    this.made.set(place, row);
    if (before) before.after(row);
    else this.sheet.prepend(row);
    return row;
  }
}

/**
 * An element with a text: bytes from strangers come into the page by this alone.
 * @param {string} kind
 * @param {string} [name] of its class
 * @param {string} [text]
 */
export function element(kind, name, text) {
  const made = document.createElement(kind);
  if (name) made.className = name;
  if (text !== undefined) made.textContent = text;
  return made;
}
