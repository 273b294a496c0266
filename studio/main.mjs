/* The page: a grammar, a file, what the parser's worker says of both, and the panes that show it. */
import { bytes_of_base64, given_lines, link_of, unpacked, work_of } from "./link.mjs";
import { candidates } from "./formats.mjs";
import { Desk } from "./desk.mjs";
import { Editor } from "./editor.mjs";
import { TreePane } from "./tree_pane.mjs";
import { BytePane } from "./byte_pane.mjs";
import { definition, place_of } from "./lexer.mjs";
import { cycle, refusal, report } from "./report.mjs";
import { detail, listed } from "./details.mjs";
import { innermost } from "./columns.mjs";
import { MOST_PICKED, picked } from "./paths.mjs";
import { element } from "./scroller.mjs";

/** @typedef {import("./columns.mjs").Columns} Columns */
/** @typedef {import("./worker.mjs").Answer} Answer */
/** @typedef {import("./worker.mjs").Said} Said */

const WANTED = "This browser has no 64-bit memories for WebAssembly, so it can't run the parser: Chrome 133 or Firefox 134 and what is newer can. " +
  "A tree that ipg json wrote can still be dropped here beside its file.";
const PACKED = 1 << 26; // the most that what stands in this page may unpack to
const FIRST = "png";
const MEMORY_OF_64_BITS = Uint8Array.of(0, 0x61, 0x73, 0x6d, 1, 0, 0, 0, 5, 3, 1, 4, 1);

/** @template {HTMLElement} [T=HTMLElement] @param {string} id @returns {T} */
const at = (id) => /** @type {T} */ (document.getElementById(id));
const input = (/** @type {string} */ id) => /** @type {HTMLInputElement} */ (at(id));

/**
 * What stands in the page, packed.
 * @param {string} id
 */
const stored = (id) => unpacked(bytes_of_base64((at(id).textContent ?? "").trim()), "gzip", PACKED);

/** @param {string} name @param {BlobPart} content */
function save(name, content) {
  const link = /** @type {HTMLAnchorElement} */ (element("a"));
  link.href = URL.createObjectURL(new Blob([content]));
  link.download = name;
  link.click();
  setTimeout(() => URL.revokeObjectURL(link.href), 60000);
}

/** @param {string} text */
const say = (text) => (at("status").textContent = text);

class Studio {
  /** @param {Desk} desk @param {import("./formats.mjs").Formats} formats */
  constructor(desk, formats) {
    this.desk = desk;
    this.formats = formats;
    this.file = { name: "file", bytes: new Uint8Array(0), is_sample: true };
    this.is_own = false;
    /** @type {Columns | null} */
    this.tree = null;
    /** @type {{ at: number, value: number }[]} */
    this.undone = [];
    this.editor = new Editor(at("editor"), () => this.typed());
    this.tree_pane = new TreePane(at("tree"), { pick: (row) => this.pick(row), define: (row) => this.define(row) });
    this.byte_pane = new BytePane(at("bytes"), at("strip"), {
      pick: (byte) => this.pick_byte(byte),
      change: (place, value) => this.change(place, value),
      undo: () => this.undo(),
    });
  }

  // ---- what is worked on

  typed() {
    this.is_own = true;
    input("format").value = "";
    this.parse();
  }

  /** @param {string} text @param {string} format its name, or none */
  set_grammar(text, format) {
    this.editor.value = text;
    this.is_own = !format;
    input("format").value = format;
  }

  /** @param {string} name @param {Uint8Array} bytes @param {boolean} is_sample */
  set_file(name, bytes, is_sample) {
    this.file = { name, bytes, is_sample };
    this.undone = [];
    this.desk.hold(bytes);
    document.title = `${name} \u2013 ipg studio`;
    at("hint").hidden = true;
    this.forget();
    this.byte_pane.show(bytes, null, -1);
  }

  /** The tree is of another file, or of none. */
  forget() {
    this.tree = null;
    this.tree_pane.show(null, this.file.bytes);
    this.byte_pane.marked = [0, 0];
    at("details").replaceChildren();
  }

  /** @param {string} format */
  choose(format) {
    if (!Object.hasOwn(this.formats.grammars, format)) return;
    this.set_grammar(this.formats.grammars[format], format);
    const sample = this.formats.samples[format];
    if (this.file.is_sample && sample) this.set_file(format.replace("@", ""), sample.slice(), true);
    this.parse();
  }

  /** @param {import("./link.mjs").Work} work */
  take_work({ grammar, name, bytes }) {
    this.set_grammar(grammar, "");
    this.set_file(name, bytes ?? new Uint8Array(0), false);
    this.parse();
  }

  /**
   * What `ipg-studio` was called with. A format that is built in has a name with @ here.
   * @param {ReturnType<typeof given_lines>} given
   */
  async take_given({ format, grammar, name, bytes }) {
    const known = [`@${format}`, format].find((one) => Object.hasOwn(this.formats.grammars, one));
    if (bytes) this.set_file(name, bytes, false);
    if (grammar !== null) this.set_grammar(grammar, "");
    else if (known) return this.choose(known);
    if (grammar === null && bytes) await this.guess();
    else await this.parse();
    if (format && !known) say(`No format of this page is called ${format}.`);
  }

  /**
   * A grammar goes to its pane, a tree in JSON is shown, any other file is parsed.
   * @param {Iterable<File>} files
   */
  async take_files(files) {
    let tree = null;
    let is_file = false;
    for (const file of files) {
      const bytes = await file.arrayBuffer().then((buffer) => new Uint8Array(buffer), () => null);
      if (!bytes) return say(`${file.name} can't be read, or is too large for this browser.`);
      if (file.name.endsWith(".ipg")) this.set_grammar(new TextDecoder().decode(bytes), "");
      else if (new TextDecoder().decode(bytes.subarray(0, 9)) === '{"rule":"') tree = new TextDecoder().decode(bytes);
      else {
        is_file = true;
        this.set_file(file.name, bytes, false);
      }
    }
    if (tree !== null) await this.read_json(tree);
    else if (is_file && !this.is_own) await this.guess();
    else await this.parse();
  }

  // ---- what the parser is asked

  /** Whether there is a tree. */
  async parse() {
    if (!this.desk.module) {
      say(WANTED);
      return false;
    }
    const begin = performance.now();
    const answer = await this.desk.ask({ kind: "parse", grammar: this.editor.value });
    if (answer) this.show(answer, performance.now() - begin);
    return answer?.kind === "tree";
  }

  /** The first grammar whose bytes the file has is tried at once; where it doesn't read the file, all that may are. */
  async guess() {
    if (!this.desk.module) return say(WANTED);
    const grammars = candidates(this.formats, this.file.bytes);
    this.set_grammar(grammars[0][1], grammars[0][0]);
    if (await this.parse()) return;
    const answer = await this.desk.ask({ kind: "guess", grammars });
    if (answer?.kind !== "guessed") return;
    if (answer.name) this.set_grammar(this.formats.grammars[answer.name], answer.name);
    await this.parse();
    if (!answer.name) say("No format that comes with this page reads this file.");
  }

  /** @param {string} text */
  async read_json(text) {
    const answer = await this.desk.ask({ kind: "json", text });
    if (answer) this.show(answer, 0);
  }

  /** @param {string[]} words @param {(answer: { said: Said, bytes: Uint8Array }) => void} then */
  async run(words, then) {
    if (!this.desk.module) return say(WANTED);
    const answer = await this.desk.ask({ kind: words[0], words, grammar: this.editor.value });
    if (answer?.kind === "said") then(answer);
    else if (answer?.kind === "fault") say(answer.said.text);
  }

  // ---- what it says

  /** @param {Answer} answer @param {number} took */
  show(answer, took) {
    document.body.dataset.answer = answer.kind;
    document.body.dataset.answers = String(Number(document.body.dataset.answers ?? 0) + 1);
    const [places, arrows, fault] = this.#told(answer, took);
    this.editor.fault(places);
    this.editor.round(arrows);
    if (answer.kind === "refused" || answer.kind === "fault") {
      at("tree").classList.add("stale");
    } else {
      at("tree").classList.remove("stale");
      this.tree = answer.kind === "tree" ? answer.tree : null;
      this.tree_pane.show(this.tree, this.file.bytes);
      if (!this.tree) this.byte_pane.marked = [0, 0];
    }
    this.byte_pane.show(this.file.bytes, this.tree, fault);
    if (this.tree_pane.picked < 0) at("details").replaceChildren();
    if (fault >= 0) this.byte_pane.bring(Math.min(fault, this.file.bytes.length - 1));
  }

  /**
   * Writes the report, and tells what is marked.
   * @param {Answer} answer
   * @param {number} took
   * @returns {[import("./report.mjs").Place[], import("./editor.mjs").Arrow[], number]}
   */
  #told(answer, took) {
    const box = at("report");
    box.replaceChildren();
    if (answer.kind === "tree") {
      say(`Parsed: ${answer.tree.count.toLocaleString("en")} rows in ${Math.round(took)} ms.`);
      if (took) box.append(this.#button("How far the parse came", () => this.furthest()));
      return [[], [], -1];
    }
    if (answer.kind === "refused") {
      const refused = refusal(answer.said.text);
      say("The grammar is refused.");
      this.#sentences([refused.head, ...refused.notes, ...(answer.may.length ? [`Here may stand: ${answer.may.join("  ")}`] : [])]);
      box.prepend(...refused.places.slice(0, 1).map((place) => this.#button(`Line ${place.line + 1}`, () => this.editor.go(place, true))));
      return [refused.places, / G13 /.test(refused.head) ? cycle(refused) : [], -1];
    }
    if (answer.kind === "failed") return this.#failed(answer.said);
    const text = "said" in answer ? answer.said.text || `The parser ended with status ${answer.said.status}: memory or a limit.` : "";
    say(text);
    this.#sentences([text]);
    return [[], [], -1];
  }

  /** @param {string[]} sentences */
  #sentences([head, ...notes]) {
    at("report").append(element("p", "head bad", head), ...notes.map((note) => element("p", "", note)));
  }

  /** @param {string} text @param {() => void} done */
  #button(text, done) {
    const button = element("button", "", text);
    button.addEventListener("click", done);
    return button;
  }

  /** @param {Said} said @returns {[import("./report.mjs").Place[], import("./editor.mjs").Arrow[], number]} */
  #failed(said) {
    const { head, told, at: byte, failures } = report(said.text);
    say(`${head}. ${told[0] ?? ""}`);
    this.#sentences([head, ...told]);
    for (const { place, notes, calls } of failures) {
      const box = at("report");
      box.append(element("hr"));
      if (place) {
        const term = this.editor.lines[place.line]?.slice(place.column, place.column + 60) ?? "";
        box.append(this.#button(`Line ${place.line + 1}: ${term}`, () => this.editor.go(place, true)));
      }
      box.append(...notes.map((note) => element("p", "", note)));
      box.append(...calls.map((call) => this.#button(call.text.replace(/ at g:.*/, ""), () => this.follow(call))));
    }
    const places = failures.flatMap(({ place }) => (place ? [place] : []));
    if (places.length) this.editor.go(places[0], false);
    return [places, [], byte ?? -1];
  }

  /** @param {import("./report.mjs").Call} call */
  follow({ from, to, place, rule }) {
    this.byte_pane.mark(from, to);
    if (place) this.editor.go(place, false);
    else this.#go_to_rule(rule);
  }

  furthest() {
    this.run(["explain", "g", "input"], ({ said }) => {
      at("report").replaceChildren();
      const [places] = this.#failed(said);
      this.editor.fault(places);
    });
  }

  // ---- picking

  /** @param {number} row */
  pick(row) {
    if (!this.tree || row < 0) return;
    this.tree_pane.pick(row);
    this.byte_pane.mark(this.tree.starts[row], this.tree.ends[row]);
    detail(at("details"), this.tree, row, this.file.bytes);
  }

  /** @param {number} byte */
  pick_byte(byte) {
    const row = this.tree ? innermost(this.tree, byte) : -1;
    if (row >= 0) return this.pick(row);
    this.tree_pane.leave();
    this.byte_pane.mark(byte, byte);
    at("details").replaceChildren();
    say(`Byte ${byte} (0x${byte.toString(16)}) is ${this.file.bytes[byte]}. ${this.tree ? "No part has it." : ""}`);
  }

  /**
   * Goes to the rule of a row.
   * @param {number} row
   */
  define(row) {
    if (!this.tree) return;
    const of = this.tree.kinds[row] === 0 ? row : this.tree.parents[row];
    this.#go_to_rule(this.tree.names[this.tree.named[of]]);
  }

  /** @param {string} rule */
  #go_to_rule(rule) {
    const found = definition(this.editor.value, rule);
    if (found < 0) return;
    const { line } = place_of(this.editor.value, found);
    this.editor.go({ line, column: 0 }, false);
  }

  /** @param {string} text @param {1 | -1} step */
  async search(text, step) {
    const row = await this.tree_pane.find(text, step);
    if (row >= 0) this.pick(row);
    else say(`Nothing is called ${text}, or has it.`);
  }

  /** @param {string} path */
  async query(path) {
    if (!path) return this.tree_pane.mark([]);
    const rows = this.tree ? picked(this.tree, path) : [];
    if (rows === "no path") return say(`${path} is no path: NAME, NAME(k), * or **, parted by /, and perhaps .FIELD.`);
    if (rows === "too many") return say(`${path} comes to more than ${MOST_PICKED.toLocaleString("en")} parts.`);
    this.tree_pane.mark(rows);
    if (rows.length) this.pick(rows[0]);
    say(`${path} picks ${rows.length}.`);
    const tree = this.tree;
    const size = tree ? rows.reduce((sum, row) => sum + tree.ends[row] - tree.starts[row], 0) : 0;
    if (rows.length && size < 1 << 20) {
      await this.run(["query", "g", "input", path], ({ said }) => {
        const lines = said.text.trimEnd().split("\n").slice(0, 50);
        listed(at("details"), path, lines.map((line, i) => [String(i), line]));
      });
    }
  }

  // ---- changes

  /** @param {number} place @param {number} value */
  change(place, value) {
    this.undone.push({ at: place, value: this.file.bytes[place] });
    this.desk.edit(place, value);
    this.parse();
  }

  undo() {
    const last = this.undone.pop();
    if (!last) return;
    this.desk.edit(last.at, last.value);
    this.byte_pane.go(last.at);
    this.parse();
  }

  async link() {
    const { name, bytes } = this.file;
    const text = await link_of({ grammar: this.editor.value, name, bytes });
    if (text === null) return say("The file is too large for a link: 64 KiB with the grammar at most. Save both, or use ipg-studio --export.");
    history.replaceState(null, "", `#${text}`);
    await navigator.clipboard?.writeText(location.href).catch(() => undefined);
    say("The address of this page holds the grammar and the file now.");
  }

  async follow_link() {
    try {
      this.take_work(await work_of(location.hash));
    } catch (error) {
      say(`What stands behind # in the address is no link of this page: ${error instanceof Error ? error.message : error}`);
      return false;
    }
    return true;
  }
}

// ---- what a person does

/** @param {Studio} studio */
function wire(studio) {
  const on = (/** @type {string} */ id, /** @type {string} */ event, /** @type {(event: any) => void} */ done) => at(id).addEventListener(event, done);
  on("format", "change", () => studio.choose(input("format").value));
  on("open", "change", () => {
    const files = [...(input("open").files ?? [])];
    input("open").value = ""; // so that the same file can be picked again
    studio.take_files(files);
  });
  on("guess", "click", () => studio.guess());
  on("stop", "click", () => studio.desk.stop("Stopped."));
  on("save_file", "click", () => save(studio.file.name, studio.file.bytes));
  on("save_grammar", "click", () => save("grammar.ipg", studio.editor.value));
  on("save_json", "click", () => studio.run(["json", "g", "input"], ({ said, bytes }) => {
    if (said.status) say(said.text.trim() || "There is no tree.");
    else save(`${studio.file.name}.json`, bytes);
  }));
  on("link", "click", () => studio.link());
  on("search", "keydown", (event) => event.key === "Enter" && studio.search(input("search").value, event.shiftKey ? -1 : 1));
  on("path", "keydown", (event) => event.key === "Enter" && studio.query(input("path").value.trim()));
  addEventListener("hashchange", () => location.hash.length > 1 && studio.follow_link());
  wire_drop(studio);
  addEventListener("keydown", pressed);
}

/** @param {Studio} studio */
function wire_drop(studio) {
  addEventListener("dragover", (event) => {
    event.preventDefault();
    document.body.classList.add("over");
  });
  addEventListener("dragleave", () => document.body.classList.remove("over"));
  addEventListener("drop", (event) => {
    event.preventDefault();
    document.body.classList.remove("over");
    studio.take_files([...(event.dataTransfer?.files ?? [])]);
  });
}

/**
 * F6 goes from pane to pane, `/` in the tree to the search.
 * @param {KeyboardEvent} event
 */
function pressed(event) {
  const panes = ["grammar", "tree", "bytes"];
  const here = document.activeElement?.id ?? "";
  if (event.key === "F6") at(panes[(panes.indexOf(here) + (event.shiftKey ? panes.length - 1 : 1)) % panes.length]).focus();
  else if (event.key === "/" && here === "tree") at("search").focus();
  else return;
  event.preventDefault();
}

/** @returns {Promise<import("./formats.mjs").Formats>} */
async function formats_of_page() {
  const { grammars, samples, magic } = JSON.parse(new TextDecoder().decode(await stored("formats")));
  const unpack = (/** @type {[string, unknown]} */ [name, sample]) => [name, bytes_of_base64(String(sample))];
  return { grammars, samples: Object.fromEntries(Object.entries(samples).map(unpack)), magic };
}

async function module_of_page() {
  try {
    return WebAssembly.validate(MEMORY_OF_64_BITS) ? await WebAssembly.compile(await stored("module")) : null;
  } catch {
    return null;
  }
}

/**
 * Shows a moment later that the parser works, so that quick answers don't flicker.
 * @param {boolean} is_busy
 */
function busy(is_busy) {
  document.body.dataset.busy = String(is_busy);
  clearTimeout(shown);
  if (!is_busy) at("stop").hidden = true;
  else shown = setTimeout(() => (at("stop").hidden = false), 300);
}
/** @type {number | undefined} */
let shown;

async function start() {
  const [formats, module] = await Promise.all([formats_of_page(), module_of_page()]);
  for (const name of Object.keys(formats.grammars)) at("format").append(element("option", "", name));
  const studio = new Studio(new Desk(at("worker").textContent ?? "", module, busy), formats);
  wire(studio);
  const given = (at("given").textContent ?? "").trim();
  if (given) await studio.take_given(given_lines(given));
  else if (location.hash.length < 2) studio.choose(FIRST);
  else if (!(await studio.follow_link())) return;
  if (!module) say(WANTED);
}

start().catch((error) => say(`The page couldn't start: ${error}`)).finally(() => (document.body.dataset.ready = "true"));
