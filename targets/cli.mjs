#!/usr/bin/env node
/* The command line over the WebAssembly module: `npx ipg WORDS..` says what `ipg WORDS..` says. */
import { spawnSync } from "node:child_process";
import { closeSync, fstatSync, openSync, readSync, writeSync } from "node:fs";
import { fileURLToPath } from "node:url";
import { Ipg, IpgError } from "./ipg.mjs";

const MOST = 2 ** 30 + 1; // of a longer file the library wants to know that it is longer
const AT_ONCE = 2 ** 20;
const FLAG = "--experimental-wasm-memory64";

/** What stands in a plain file, read into the module's memory. */
function plain(ipg, fd, size) {
  const input = ipg.input(Math.min(size, MOST));
  let at = 0;
  for (let count = 1; at < input.size && count > 0; at += count) count = readSync(fd, input.bytes, at, input.size - at, null);
  input.size = at;
  return input;
}

/** What comes out of a pipe or a device, as far as MOST. */
function streamed(fd) {
  const pieces = [];
  for (let size = 0; size < MOST; ) {
    const piece = Buffer.alloc(AT_ONCE);
    const count = readSync(fd, piece, 0, AT_ONCE, null);
    if (count === 0) break;
    pieces.push(piece.subarray(0, count));
    size += count;
  }
  return Buffer.concat(pieces);
}

/** What a name stands for: `-` is the standard input, and `@png` the grammar of a format that comes with the package. */
function opened(name) {
  if (name === "-") return 0;
  try {
    return openSync(name);
  } catch (error) {
    const [, format] = /^@([\w-]+)$/.exec(name) ?? [];
    if (!format) throw error;
    return openSync(new URL(`formats/${format}.ipg`, import.meta.url));
  }
}

/** What stands in the file of this name; null where it can't be read. */
function file_of(ipg, name) {
  let fd;
  try {
    fd = opened(name);
    const { size } = fstatSync(fd);
    return size > 0 ? plain(ipg, fd, size) : streamed(fd);
  } catch (error) {
    if (error instanceof IpgError) throw error;
    return null;
  } finally {
    if (fd !== undefined) closeSync(fd);
  }
}

/** All bytes to standard output; a reader that went away is a status, as in the program. */
function write(bytes) {
  for (let at = 0; at < bytes.length; ) {
    try {
      at += writeSync(1, bytes, at);
    } catch (error) {
      if (error.code !== "EAGAIN") return 6;
    }
  }
  return 0;
}

/** The same command in a Node that is told to have 64-bit memories, as older ones can: its status. */
function again(words) {
  return spawnSync(process.execPath, [FLAG, fileURLToPath(import.meta.url), ...words], { stdio: "inherit" }).status ?? 69;
}

async function main(words) {
  const ipg = await Ipg.load();
  const files = Object.fromEntries(words.map((word) => [word, file_of(ipg, word)]).filter(([, bytes]) => bytes));
  const { status, output } = ipg.run(words, files);
  return write(output) || status;
}

/** Says what stopped it: a status. */
function told(error) {
  const is_ours = error instanceof IpgError;
  console.error(is_ours ? error.message : String(error));
  return is_ours ? error.status : 69;
}

const words = process.argv.slice(2);
const is_wanting = (error) => error instanceof IpgError && error.status === 69 && !process.execArgv.includes(FLAG);
process.exitCode = await main(words).catch((error) => (is_wanting(error) ? again(words) : told(error)));
