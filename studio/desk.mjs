/* The page's side of the parser's worker: of questions that wait only the newest of a kind is kept, and a question that is old, or takes too
 * long, is ended with its worker. */

/** @typedef {import("./worker.mjs").Answer} Answer */
/** @typedef {{ kind: string, grammar?: string, words?: string[], text?: string, grammars?: [string, string][] }} Question */

const OLD = 700; // milliseconds after which a question gives way to a newer one
const LONGEST = 20000; // and after which it is ended

export class Desk {
  /**
   * @param {string} code of the worker
   * @param {WebAssembly.Module | null} module
   * @param {(is_busy: boolean) => void} busy
   */
  constructor(code, module, busy) {
    this.address = URL.createObjectURL(new Blob([code], { type: "text/javascript" }));
    this.module = module;
    this.busy = busy;
    this.bytes = new Uint8Array(0);
    /** @type {{ id: number, question: Question, done: (answer: Answer | null) => void, since: number }[]} */
    this.waiting = [];
    /** @type {Desk["waiting"][0] | null} */
    this.current = null;
    this.id = 0;
    this.ended = 0;
    this.worker = this.#started();
  }

  #started() {
    const worker = new Worker(this.address);
    worker.onmessage = ({ data }) => this.#answered(data);
    worker.onerror = () => this.#over({ kind: "fault", said: { status: 70, text: "The parser's thread couldn't go on." } });
    worker.postMessage({ kind: "start", module: this.module });
    if (this.module) worker.postMessage({ kind: "file", bytes: this.bytes });
    return worker;
  }

  /** @param {Uint8Array} bytes */
  hold(bytes) {
    this.bytes = bytes;
    if (this.module) this.worker.postMessage({ kind: "file", bytes });
  }

  /** @param {number} at @param {number} value */
  edit(at, value) {
    this.bytes[at] = value;
    if (this.module) this.worker.postMessage({ kind: "edit", at, value });
  }

  /**
   * The answer, or null where a newer question of its kind took its place.
   * @param {Question} question
   * @returns {Promise<Answer | null>}
   */
  ask(question) {
    return new Promise((done) => {
      for (const old of this.waiting.filter((one) => one.question.kind === question.kind)) old.done(null);
      this.waiting = this.waiting.filter((one) => one.question.kind !== question.kind);
      this.waiting.push({ id: ++this.id, question, done, since: 0 });
      const { current } = this;
      if (!current) this.#next();
      else if (current.question.kind === question.kind) this.#give_way(current);
    });
  }

  /** @param {Desk["waiting"][0]} current */
  #give_way(current) {
    const left = OLD - (performance.now() - current.since);
    setTimeout(() => this.current === current && this.waiting.some((one) => one.question.kind === current.question.kind) && this.#restart(null),
      Math.max(0, left));
  }

  #next() {
    this.current = this.waiting.shift() ?? null;
    this.busy(this.current !== null);
    const { current } = this;
    if (!current) return;
    current.since = performance.now();
    this.worker.postMessage({ ...current.question, id: current.id });
    setTimeout(() => this.current === current && this.stop(`Ended after ${LONGEST / 1000} seconds: this takes longer.`), LONGEST);
  }

  /** @param {{ id: number, given: Answer }} data */
  #answered({ id, given }) {
    if (this.current?.id !== id) return;
    if (given.kind === "fault" && given.said.status === 7) this.#restart(given);
    else this.#over(given);
  }

  /** @param {Answer | null} answer */
  #over(answer) {
    const { current } = this;
    this.current = null;
    current?.done(answer);
    this.#next();
  }

  /** @param {Answer | null} answer of the question that is ended */
  #restart(answer) {
    this.worker.terminate();
    this.ended++;
    this.worker = this.#started();
    this.#over(answer);
  }

  /** @param {string} why */
  stop(why) {
    if (this.current) this.#restart({ kind: "fault", said: { status: 0, text: why } });
  }
}
