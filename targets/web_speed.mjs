/* In a browser: the least milliseconds of each command in some rounds, those of the first one with the start of the module, and the module's memory. */
import { Ipg } from "./ipg.mjs";

async function bytes_of(name) {
  const address = [...new TextEncoder().encode(name)].map((byte) => byte.toString(16).padStart(2, "0")).join("");
  return new Uint8Array(await (await fetch(`/data/${address}`)).arrayBuffer());
}

function timed(ipg, run, files) {
  const began = performance.now();
  const { status } = ipg.run(run.words, files);
  if (status) throw new Error(`${run.words}: status ${status}`);
  return performance.now() - began;
}

const rows = [];
try {
  const module = new Uint8Array(await (await fetch("/ipg.wasm")).arrayBuffer());
  for (const run of await (await fetch("/runs.json")).json()) {
    const files = {};
    for (const name of run.files) files[name] = await bytes_of(name);
    const began = performance.now();
    const ipg = await Ipg.load(module);
    timed(ipg, run, files);
    const first = performance.now() - began;
    const memory = ipg.memory;
    const times = Array.from({ length: 10 }, () => timed(ipg, run, files));
    rows.push({ first, least: Math.min(...times), memory });
  }
} catch (error) {
  rows.push({ error: String(error) });
}
await fetch("/", { method: "POST", body: JSON.stringify(rows) });
