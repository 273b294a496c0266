/* In Node: the tests of ipg.mjs, then the list of commands on standard input, over the files of the working folder; what differs is told in JSON. */
import { createHash } from "node:crypto";
import { readFileSync } from "node:fs";
import { Ipg } from "./ipg.mjs";
import { tests } from "./tests.mjs";

function fault_of(ipg, run) {
  const files = Object.fromEntries(run.files.map((name) => [name, readFileSync(name)]));
  const { status, output } = ipg.run(run.words, files);
  const sum = createHash("sha256").update(output).digest("hex");
  if (status === run.status && sum === run.sum) return null;
  return `${JSON.stringify(run.words)}: status ${status}, due ${run.status}; ${output.length} bytes, due ${run.size}`;
}

const ipg = await Ipg.load();
const faults = await tests(ipg);
for (const run of JSON.parse(readFileSync(0, "utf8"))) {
  try {
    const fault = fault_of(ipg, run);
    if (fault) faults.push(fault);
  } catch (error) {
    faults.push(`${JSON.stringify(run.words)}: ${error}`);
  }
}
console.log(JSON.stringify(faults));
