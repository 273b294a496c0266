/* In Node: milliseconds of a processor for each command on standard input, the least of some rounds and that of the first one with the start. */
import { readFileSync } from "node:fs";
import { Ipg } from "./ipg.mjs";

function spent() {
  const { user, system } = process.cpuUsage();
  return (user + system) / 1000;
}

function timed(ipg, run, files) {
  const began = spent();
  const { status } = ipg.run(run.words, files);
  if (status) throw new Error(`${run.words}: status ${status}`);
  return spent() - began;
}

const rows = [];
for (const run of JSON.parse(readFileSync(0, "utf8"))) {
  const files = Object.fromEntries(run.files.map((name) => [name, readFileSync(name)]));
  const began = spent();
  const ipg = await Ipg.load();
  timed(ipg, run, files);
  const first = spent() - began;
  rows.push({ first, least: Math.min(...Array.from({ length: 10 }, () => timed(ipg, run, files))), memory: ipg.memory });
}
console.log(JSON.stringify(rows));
