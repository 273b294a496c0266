/* A grammar and a small file in the part of an address behind `#`: packed, in the letters of base64 for addresses. */

/** @typedef {{ grammar: string, name: string, bytes: Uint8Array | null }} Work */

const MOST_LINKED = 1 << 16;
const MOST_UNPACKED = 1 << 22;

/** @param {Uint8Array} bytes */
export function base64_of(bytes) {
  let text = "";
  for (let at = 0; at < bytes.length; at += 0x8000) text += String.fromCharCode(...bytes.subarray(at, at + 0x8000));
  return btoa(text);
}

/** @param {string} text */
export const bytes_of_base64 = (text) => Uint8Array.from(atob(text), (letter) => letter.charCodeAt(0));

/**
 * What a stream gives, as long as it isn't more than `most`.
 * @param {ReadableStream<Uint8Array>} stream
 * @param {number} most
 */
async function gathered(stream, most) {
  const reader = stream.getReader();
  const pieces = [];
  let size = 0;
  for (let piece = await reader.read(); !piece.done; piece = await reader.read()) {
    size += piece.value.length;
    if (size > most) throw new RangeError("it unpacks to more than is taken");
    pieces.push(piece.value);
  }
  const whole = new Uint8Array(size);
  let at = 0;
  for (const piece of pieces) {
    whole.set(piece, at);
    at += piece.length;
  }
  return whole;
}

/** @param {Uint8Array} bytes @param {"gzip" | "deflate-raw"} form @param {number} most */
export function unpacked(bytes, form, most) {
  const stream = new Blob([bytes]).stream().pipeThrough(new DecompressionStream(form));
  return gathered(stream, most);
}

/**
 * The text behind `#`; null where the file is too large for a link.
 * @param {Work} work
 */
export async function link_of({ grammar, name, bytes }) {
  if (grammar.length + (bytes?.length ?? 0) > MOST_LINKED) return null;
  const text = JSON.stringify({ grammar, name, file: bytes ? base64_of(bytes) : null });
  const packed = await gathered(new Blob([text]).stream().pipeThrough(new CompressionStream("deflate-raw")), MOST_UNPACKED);
  return base64_of(packed).replace(/\+/g, "-").replace(/\//g, "_").replace(/=+$/, "");
}

/**
 * What stands behind `#`. Throws where that is no link of ours.
 * @param {string} hash
 * @returns {Promise<Work>}
 */
export async function work_of(hash) {
  const packed = bytes_of_base64(hash.replace(/^#/, "").replace(/-/g, "+").replace(/_/g, "/"));
  return given_work(new TextDecoder().decode(await unpacked(packed, "deflate-raw", MOST_UNPACKED)));
}

/** @param {string} text JSON @returns {Work} */
function given_work(text) {
  const { grammar, name, file } = JSON.parse(text);
  if (typeof grammar !== "string" || typeof name !== "string") throw new TypeError("it has no grammar");
  return { grammar, name, bytes: typeof file === "string" ? bytes_of_base64(file) : null };
}

/**
 * What `ipg-studio` wrote into the page: a line for each thing, its word and base64.
 * @param {string} text
 */
export function given_lines(text) {
  const words = new Map(text.trim().split("\n").map((line) => /** @type {[string, string]} */ (line.split(" ", 2))));
  const bytes_of = (/** @type {string} */ word) => bytes_of_base64(words.get(word) ?? "");
  const text_of = (/** @type {string} */ word) => new TextDecoder().decode(bytes_of(word));
  const format = (words.get("format") ?? "").replace(/^@/, "");
  return { format, grammar: words.has("grammar") ? text_of("grammar") : null, name: text_of("name"), bytes: words.has("file") ? bytes_of("file") : null };
}
