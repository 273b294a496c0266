/** Bytes: text is taken as UTF-8. */
export type Data = string | ArrayBuffer | ArrayBufferView | Input;

/** What `ipg` says in place of an answer; `status` is the exit status of the command line, `text` what it prints. */
export class IpgError extends Error {
  constructor(status: number, text: string);
  readonly status: number;
  readonly text: string;
}

/** The grammar is refused; `line` and `column` count from 1, `column` in bytes. */
export class Refused extends IpgError {
  readonly line: number | null;
  readonly column: number | null;
}

/** The input has no tree. */
export class NoParse extends IpgError {
  readonly at: number | null;
  readonly rule: string | null;
}

/** Memory was wanting, or a limit of the checker's own was reached. */
export class OutOfMemory extends IpgError {}

/** Bytes in the module's memory, which no call copies. */
export class Input {
  private constructor();
  readonly size: number;
  /** The bytes; a call may move the memory, so ask anew after each. */
  readonly bytes: Uint8Array;
  free(): void;
}

export class Ipg {
  private constructor();
  static readonly target: "wasm64";
  static load(source?: string | URL | ArrayBuffer | ArrayBufferView | WebAssembly.Module): Promise<Ipg>;
  /** How many bytes the module's memory has. */
  readonly memory: number;
  input(size: number): Input;
  read(blob: Blob): Promise<Input>;
  grammar(text: string | ArrayBuffer | ArrayBufferView): Grammar;
  run(words: readonly string[], files?: Readonly<Record<string, Data>> | ReadonlyMap<string, Data>): { status: number; output: Uint8Array };
}

export class Grammar {
  private constructor();
  readonly rules: readonly string[];
  readonly attributes: readonly string[];
  /** `rows`: how many the tree is likely to have; where it has more, it is parsed a second time. */
  parse(data: Data, rows?: number): Tree;
  parse_each(inputs: readonly Data[], rows?: number): (Tree | IpgError)[];
}

export interface Row {
  kind: number;
  of: number;
  name: number;
  high: number;
  low: number;
  depth: number;
  from: number;
  to: number;
  start: number;
  end: number;
  value: bigint;
}

export class Tree {
  private constructor();
  readonly grammar: Grammar;
  /** All rows, of 72 bytes each, as `ipg_row` of the library's header has them; and the same by numbers of 32 and of 64 bits. */
  readonly rows: ArrayBuffer;
  readonly words: Uint32Array;
  readonly values: BigInt64Array;
  /** How many rows there are. */
  readonly length: number;
  readonly root: Node;
  row(i: number): Row;
  /** The rows that lie in row i, one level below it. */
  below(i: number): number[];
  attributes(i: number): Record<string, number | bigint>;
}

export interface Leaf {
  kind: "terminal" | "number" | "bytes";
  symbol: string | null;
  from: number;
  to: number;
  value?: number | bigint;
}

export interface Items {
  kind: "array" | "repetition";
  symbol: string;
  from: number;
  to: number;
  readonly items: Part[];
}

/** A node; its first kid of a rule and its attributes are properties by their names too, where none of these has the name. */
export interface Node {
  kind: "node";
  rule: string;
  from: number;
  to: number;
  start: number;
  end: number;
  attributes: Record<string, number | bigint>;
  readonly kids: Part[];
  readonly [name: string]: any;
}

export type Part = Node | Leaf | Items;
