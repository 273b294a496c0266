/* ipg in browsers, Node, Deno and workers: the proved library as WebAssembly, and trees of its rows. ipg.d.ts has the types.
 *
 *   import { Ipg } from "./ipg.mjs";
 *   const ipg = await Ipg.load();
 *   const tree = ipg.grammar("@gif").parse(bytes);
 *   tree.root.kids.map(kid => kid.rule)
 */
const ROOM = 1 << 16; // bytes for a text at first, and 64 for each byte of a file (an image's tree has 34), up to
const MOST_ROOM = 1 << 26; // so many: a command whose text has more is run again
const ROW = 72; // bytes of an `ipg_row`
const PRIMITIVES = ["U8", "U16LE", "U16BE", "U32LE", "U32BE", "U64LE", "U64BE", "Bytes"];
const KINDS = ["node", "attribute", "terminal", "number", "bytes", "array", "repetition"];
const WANTED =
  "ipg wants WebAssembly with 64-bit memories, which this engine doesn't have: " +
  "Chrome 133, Firefox 134 or Node 24 and what is newer have them, Node 20 with --experimental-wasm-memory64; Safari doesn't yet";
const text_of = (bytes) => new TextDecoder().decode(bytes);

/** What `ipg` says in place of an answer; `status` is the exit status of the command line. */
export class IpgError extends Error {
  constructor(status, text) {
    super(text.trimEnd().split("\n")[0] || `status ${status}`);
    this.name = new.target.name;
    this.status = status;
    this.text = text;
  }
}

/** The grammar is refused; `line` and `column` count from 1, `column` in bytes; null where there is no place. */
export class Refused extends IpgError {
  constructor(status, text) {
    super(status, text);
    const place = /^g:(\d+):(\d+)$/m.exec(text);
    this.line = place ? Number(place[1]) : null;
    this.column = place ? Number(place[2]) : null;
  }
}

/** The input has no tree; `at` is the furthest byte at which a rule failed, `rule` the innermost one there; null where that isn't told. */
export class NoParse extends IpgError {
  constructor(status, text) {
    super(status, text);
    const at = /^The furthest failures? (?:is|are) at byte (\d+)/m.exec(text);
    const calls = [...(text.split("\n\n")[1] ?? "").matchAll(/^in (\S+) \d+\.\.\d+/gm)];
    this.at = at ? Number(at[1]) : null;
    this.rule = calls.length ? calls[calls.length - 1][1] : null;
  }
}

/** Memory, or a limit of the checker's own. */
export class OutOfMemory extends IpgError {}

const ERRORS = { 1: NoParse, 2: Refused, 7: OutOfMemory };
const error_of = (status, text) => new (ERRORS[status] ?? IpgError)(status, text);

const bytes_of = (data) => {
  if (typeof data === "string") return new TextEncoder().encode(data);
  if (data instanceof ArrayBuffer) return new Uint8Array(data);
  if (ArrayBuffer.isView(data)) return new Uint8Array(data.buffer, data.byteOffset, data.byteLength);
  throw new TypeError("bytes are a string, an ArrayBuffer, a view of one or an Input");
};

/** Bytes in the module's own memory, which no call copies; they are there until `free`. */
export class Input {
  #memory;
  constructor(memory, at, size) {
    this.#memory = memory;
    this.at = at;
    this.size = size;
  }
  /** The bytes, to be filled or read. A call may move the memory: ask anew after each. */
  get bytes() {
    return this.#memory.view(this.at, this.size);
  }
  is_of(memory) {
    return this.#memory === memory;
  }
  free() {
    if (this.at) this.#memory.done(this.at);
    this.at = this.size = 0;
  }
}

/** One instance of the module, and what is lent to a call. */
class Memory {
  constructor(module) {
    this.exports = new WebAssembly.Instance(module, {}).exports;
    this.is_lost = false;
  }
  view(at, size) {
    return new Uint8Array(this.exports.memory.buffer, at, size);
  }
  room(size) {
    const at = Number(this.exports.ipg_room(BigInt(size || 1)));
    if (!at) throw new OutOfMemory(7, "no memory for what is handed over");
    return at;
  }
  done(at) {
    if (!this.is_lost) this.exports.ipg_done(BigInt(at));
  }
}

/** The library, loaded. Its calls don't wait; a worker that makes one can be ended from outside. */
export class Ipg {
  static target = "wasm64";
  #module;
  #memory;

  constructor(module) {
    this.#module = module;
    this.#memory = new Memory(module);
  }

  /** From bytes, a module, an address, or without anything from `ipg.wasm` beside this file. */
  static async load(source = new URL("ipg.wasm", import.meta.url)) {
    if (source instanceof WebAssembly.Module) return new Ipg(source);
    const bytes = typeof source === "string" || source instanceof URL ? await fetched(source) : bytes_of(source);
    return new Ipg(await compiled(bytes));
  }

  /** How many bytes the module's memory has. */
  get memory() {
    return this.#memory.exports.memory.buffer.byteLength;
  }

  /** Room for an input in the module's memory. */
  input(size) {
    return new Input(this.#memory, this.#memory.room(size), size);
  }

  /** A Blob or a File, read into the module's memory piece by piece. */
  async read(blob) {
    const input = this.input(blob.size);
    let at = 0;
    for (const reader = blob.stream().getReader(); ; ) {
      const { done, value } = await reader.read();
      if (done) return input;
      input.bytes.set(value, at);
      at += value.length;
    }
  }

  /* Makes a call with `lend`, which puts bytes in the module's memory until it ends, and `take`, which gives room. A call that traps, as where
   * the stack is too small, leaves its memory in disorder: the next one has a new memory, and inputs that were in the old one are gone. */
  call(body) {
    const memory = this.#memory;
    const lent = [];
    const take = (size) => (lent.push(memory.room(size)), lent[lent.length - 1]);
    const lend = (data) => {
      if (data instanceof Input) return own(data, memory);
      const bytes = bytes_of(data);
      const at = take(bytes.length);
      memory.view(at, bytes.length).set(bytes);
      return [at, bytes.length];
    };
    try {
      return body(memory, lend, take);
    } catch (error) {
      if (error instanceof IpgError || error instanceof TypeError) throw error;
      memory.is_lost = true;
      this.#memory = new Memory(this.#module);
      throw new OutOfMemory(7, `the module stopped: ${error.message}`);
    } finally {
      for (const at of lent) memory.done(at);
    }
  }

  /** The command line `ipg WORDS..` over files in memory: its status, and its text as bytes. */
  run(words, files = {}) {
    return this.call((memory, lend, take) => {
      const named = files instanceof Map ? [...files] : Object.entries(files);
      const told = table(memory, take, words.map((word) => lend(String(word))));
      const lent = named.flatMap(([name, data]) => [lend(name), lend(data)]);
      const given = table(memory, take, lent);
      const lengths = lent.reduce((sum, [, size]) => sum + size, 0);
      const [word_count, file_count] = [words.length, named.length].map(BigInt);
      const call = (room, size, length) => memory.exports.ipg_run(told, word_count, given, file_count, room, size, length);
      return texts(memory, take, call, Math.min(ROOM + 64 * lengths, MOST_ROOM));
    });
  }

  /** A grammar, by its text or the name of a built-in one (`@elf`, `@pe`, `@gif`, `@pcap`). Throws Refused. */
  grammar(text) {
    const bytes = bytes_of(text);
    const builtin = bytes[0] === 0x40 ? text_of(bytes) : null;
    const { status, output } = builtin ? this.run(["explain", builtin]) : this.run(["explain", "g"], { g: bytes });
    if (status) throw error_of(status, text_of(output));
    const names = this.call((memory, lend, take) => {
      const [at, size] = lend(bytes);
      return texts(memory, take, (room, most, length) => memory.exports.ipg_names(BigInt(at), BigInt(size), room, most, length));
    });
    if (names.status) throw error_of(names.status, "no names");
    return new Grammar(this, bytes, builtin, text_of(names.output));
  }
}

async function fetched(source) {
  const url = new URL(source, import.meta.url);
  if (url.protocol === "file:" && typeof window === "undefined") {
    const { readFile } = await import("node:fs/promises");
    return new Uint8Array(await readFile(url));
  }
  const answer = await fetch(url);
  if (!answer.ok) throw new IpgError(69, `${url}: ${answer.status}`);
  return new Uint8Array(await answer.arrayBuffer());
}

async function compiled(bytes) {
  try {
    return await WebAssembly.compile(bytes);
  } catch (error) {
    if (!(error instanceof WebAssembly.CompileError)) throw error;
    const is_module = text_of(bytes.subarray(0, 4)) === "\0asm";
    throw new IpgError(69, is_module ? WANTED : "what was loaded as ipg.wasm isn't WebAssembly");
  }
}

function own(input, memory) {
  if (!input.is_of(memory) || !input.at) throw new TypeError("this input was freed, or its memory is gone");
  return [input.at, input.size];
}

/** Puts pairs of a place and a size in the module's memory, as it takes words and files. */
function table(memory, take, pairs) {
  const at = take(16 * pairs.length);
  const view = new DataView(memory.exports.memory.buffer, at, 16 * pairs.length);
  pairs.forEach(([place, size], i) => {
    view.setBigUint64(16 * i, BigInt(place), true);
    view.setBigUint64(16 * i + 8, BigInt(size), true);
  });
  return BigInt(at);
}

const number_at = (memory, at) => Number(new DataView(memory.exports.memory.buffer).getBigUint64(at, true));

/** Calls with room for a text, and again with as much as it has. */
function texts(memory, take, call, size = ROOM) {
  for (const length = take(8); ; ) {
    const at = take(size);
    const status = call(BigInt(at), BigInt(size), BigInt(length)) & 255;
    const due = number_at(memory, length);
    if (due <= size) return { status, output: memory.view(at, due).slice() };
    size = due;
  }
}

/** What each input came to, and the rows of its tree, copied once out of the room that the library filled. */
function copied(memory, answers, count, room) {
  let from = room;
  return Array.from({ length: count }, (_, i) => {
    const [status, rows] = [0, 8].map((k) => number_at(memory, answers + 16 * i + k));
    from += ROW * rows;
    return { status, rows: memory.exports.memory.buffer.slice(from - ROW * rows, from) };
  });
}

/** A grammar that was checked. Each parse checks it again, which is the library's way; `parse_each` does so once. */
export class Grammar {
  #ipg;
  #bytes;
  #builtin;

  constructor(ipg, bytes, builtin, names) {
    this.#ipg = ipg;
    this.#bytes = bytes;
    this.#builtin = builtin;
    const [rules, attributes] = names.split("\n\n");
    this.rules = rules.split("\n");
    this.attributes = (attributes ?? "").split("\n").filter((name) => name);
  }

  /** The tree of an input. Throws NoParse. With so many rows as it is likely to have, it isn't parsed again for want of room. */
  parse(data, rows = 0) {
    const [made] = this.parse_each([data], rows);
    if (made instanceof IpgError) throw made;
    return made;
  }

  /** The trees of inputs, by one check of the grammar; an error in the place of each that has none. */
  parse_each(inputs, rows = 0) {
    const answers = this.#ipg.call((memory, lend, take) => this.#rows(memory, lend, take, inputs, rows));
    return answers.map(({ status, rows }, i) => (status ? this.#fault(status, inputs[i]) : new Tree(this, rows)));
  }

  #rows(memory, lend, take, inputs, likely) {
    const lent = inputs.map(lend);
    const given = table(memory, take, lent);
    const [grammar, grammar_size] = lend(this.#bytes).map(BigInt);
    const many = BigInt(inputs.length);
    const [answers, length] = [take(16 * inputs.length), take(8)];
    const guess = lent.reduce((sum, [, size]) => sum + (size >> 3) + 64, 0);
    for (let count = Math.max(likely, Math.min(guess, 1 << 21)); ; ) {
      const room = take(ROW * count);
      const [at, most] = [BigInt(room), BigInt(count)];
      const status = memory.exports.ipg_trees(grammar, grammar_size, given, many, BigInt(answers), many, at, most, BigInt(length)) & 255;
      if (status) throw error_of(status, "");
      const due = number_at(memory, length);
      if (due <= count) return copied(memory, answers, inputs.length, room);
      count = due;
    }
  }

  #fault(status, data) {
    if (status !== 1) return error_of(status, "");
    const files = this.#builtin ? { input: data } : { g: this.#bytes, input: data };
    const { output } = this.#ipg.run(["explain", this.#builtin ?? "g", "input"], files);
    return error_of(status, text_of(output));
  }
}

/** A tree: its rows, and nodes that are made of them when they are asked for. */
export class Tree {
  #ends;
  constructor(grammar, buffer) {
    this.grammar = grammar;
    this.words = new Uint32Array(buffer);
    this.values = new BigInt64Array(buffer);
    this.length = buffer.byteLength / ROW;
    this.rows = buffer;
  }

  get root() {
    return node_of(this, 0);
  }

  /** Row i as an object. */
  row(i) {
    const at = 18 * i;
    const [kind, of, name, high, low] = this.words.subarray(at, at + 5);
    const [, depth, from, to, start, end, value] = [2, 3, 4, 5, 6, 7, 8].map((k) => this.values[9 * i + k]);
    return { kind, of, name, high, low, depth: Number(depth), from: Number(from), to: Number(to), start: Number(start), end: Number(end), value };
  }

  #depth(i) {
    return this.words[18 * i + 6];
  }

  #is_attribute(i) {
    return this.words[18 * i] === 1;
  }

  /* Of each row the first one behind it that doesn't lie in it. */
  #skips() {
    const skips = new Uint32Array(this.length).fill(this.length);
    const open = [];
    for (let k = 0; k < this.length; k++) {
      if (this.#is_attribute(k)) continue;
      while (open.length && this.#depth(open[open.length - 1]) >= this.#depth(k)) skips[open.pop()] = k;
      open.push(k);
    }
    return skips;
  }

  /** The rows that lie in row i, one level below it. */
  below(i) {
    this.#ends ??= this.#skips();
    const found = [];
    let k = i + 1;
    while (k < this.#ends[i] && this.#is_attribute(k)) k++;
    for (; k < this.#ends[i]; k = this.#ends[k]) found.push(k);
    return found;
  }

  /** The attributes of the node in row i. */
  attributes(i) {
    const found = {};
    for (let k = i + 1; k < this.length && this.#is_attribute(k); k++) {
      const value = this.values[9 * k + 8];
      found[this.grammar.attributes[this.words[18 * k + 2]]] = Number.isSafeInteger(Number(value)) ? Number(value) : value;
    }
    return found;
  }
}

const symbol_of = (tree, row) => (row.of === 0 ? tree.grammar.rules[row.name] : row.of === 1 ? PRIMITIVES[row.name] : null);

/** What stands in a row: a node, or a leaf or items, whose `kind` says which. */
function part_of(tree, i) {
  const row = tree.row(i);
  if (row.kind === 0) return node_of(tree, i);
  const part = { kind: KINDS[row.kind], symbol: symbol_of(tree, row), from: row.from, to: row.to };
  if (row.kind === 3) {
    const whole = (BigInt(row.high) << 32n) | BigInt(row.low);
    part.value = Number.isSafeInteger(Number(whole)) ? Number(whole) : whole;
  }
  if (row.kind > 4) Object.defineProperty(part, "items", { get: () => tree.below(i).map((k) => part_of(tree, k)), enumerable: true });
  return part;
}

/** A node: a rule on a part of the input. Its kids by their rules, and its attributes by their names, are properties too. */
class Node {
  constructor(tree, i) {
    const row = tree.row(i);
    Object.assign(this, { kind: "node", rule: symbol_of(tree, row), from: row.from, to: row.to, start: row.start, end: row.end });
    this.attributes = tree.attributes(i);
    Object.defineProperty(this, "kids", { get: () => tree.below(i).map((k) => part_of(tree, k)), enumerable: true });
  }
}

const named = {
  get(node, key) {
    if (key in node || typeof key !== "string") return node[key];
    if (Object.hasOwn(node.attributes, key)) return node.attributes[key];
    return node.kids.find((kid) => kid.rule === key || (kid.items && kid.symbol === key));
  },
};
const node_of = (tree, i) => new Proxy(new Node(tree, i), named);
