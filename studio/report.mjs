/* What `ipg explain` says, read back: places in the grammar, sentences, and the calls that led to a failure. */

/**
 * @typedef {{ line: number, column: number }} Place both from 0, the column in bytes
 * @typedef {{ rule: string, from: number, to: number, place: Place | null, text: string }} Call
 * @typedef {{ place: Place | null, notes: string[], calls: Call[] }} Failure
 * @typedef {{ head: string, places: Place[], notes: string[] }} Refusal
 * @typedef {{ head: string, told: string[], at: number | null, failures: Failure[] }} Report
 */

const PLACE = /^g:(\d+):(\d+)$/;
const CALL = /^in (\S+?) (\d+)\.\.(\d+)(?: at g:(\d+):(\d+))?/;

/** @param {string} line @param {string} column @returns {Place} */
const place = (line, column) => ({ line: Number(line) - 1, column: Number(column) - 1 });

/**
 * The lines of a block without places, each with the text and the mark that follow it.
 * @param {string[]} lines
 */
function parted(lines) {
  const places = [];
  const notes = [];
  for (let i = 0; i < lines.length; i++) {
    const found = PLACE.exec(lines[i]);
    if (found) {
      places.push(place(found[1], found[2]));
      i += 2;
    } else if (lines[i]) {
      notes.push(lines[i]);
    }
  }
  return { places, notes };
}

/** @param {string} text @returns {Refusal} */
export function refusal(text) {
  const [head, ...lines] = text.split("\n");
  return { head, ...parted(lines) };
}

/**
 * For each call of a cycle the values that go with it: `Then in RULE: VALUES.`
 * @param {Refusal} refused
 */
export function cycle(refused) {
  const rules = refused.head.split(" ").slice(4).map((edge) => edge.split("/")[0]);
  const values = refused.notes.map((note) => /^Then in ([^:]+): (.*)\.$/.exec(note));
  const round = refused.notes.find((note) => note.startsWith("They can go round")) ?? refused.head;
  return refused.places.map((at, i) => {
    const told = values.find((found) => found && found[1].split(" ")[0] === rules[i]);
    const length = i === 0 ? [round.replace(/^They can go round where |\.$/g, "")] : [];
    return { at, rule: rules[i], lines: [...length, ...(told ? told[2].split(", ") : [])] };
  });
}

/** @param {string} line @returns {Call | null} */
function call_of(line) {
  const found = CALL.exec(line);
  if (!found) return null;
  return { rule: found[1], from: Number(found[2]), to: Number(found[3]), place: found[4] ? place(found[4], found[5]) : null, text: line };
}

/** @param {string} block @returns {Failure} */
function failure(block) {
  const { places, notes } = parted(block.split("\n"));
  const calls = notes.map(call_of).filter(/** @returns {call is Call} */ (call) => call !== null);
  return { place: places[0] ?? null, notes: notes.filter((note) => !CALL.test(note)), calls };
}

/** @param {string} text @returns {Report} */
export function report(text) {
  const [first, ...blocks] = text.trimEnd().split("\n\n");
  const [head, ...told] = first.split("\n");
  const at = /furthest failures? (?:is|are) at byte (\d+)/.exec(first);
  return { head, told, at: at ? Number(at[1]) : null, failures: blocks.map(failure) };
}
