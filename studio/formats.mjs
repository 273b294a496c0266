/* The grammars that come with the page, a sample of each, and the bytes by which a file's format is guessed. */

/**
 * @typedef {{ grammars: Record<string, string>, samples: Record<string, Uint8Array>, magic: { name: string, place: number, bytes: string }[] }} Formats
 */

// these read nearly any file, and so say little of one
const ANYTHING = ["utf8", "protobuf"];

/** @param {Formats} formats @param {Uint8Array} bytes */
function by_magic({ magic }, bytes) {
  return magic.filter(({ place, bytes: due }) => {
    const from = place < 0 ? bytes.length + place : place;
    if (from < 0 || from + due.length / 2 > bytes.length) return false;
    return [...due.matchAll(/../g)].every(([digits], i) => digits === ".." || parseInt(digits, 16) === bytes[from + i]);
  });
}

/**
 * The grammars to try on a file, in order.
 * @param {Formats} formats
 * @param {Uint8Array} bytes
 * @returns {[string, string][]}
 */
export function candidates(formats, bytes) {
  const named = formats.magic.map(({ name }) => name);
  const unnamed = Object.keys(formats.grammars).filter((name) => !named.includes(name) && !ANYTHING.includes(name));
  const names = [...by_magic(formats, bytes).map(({ name }) => name), ...unnamed];
  return [...new Set(names)].map((name) => [name, formats.grammars[name]]);
}
