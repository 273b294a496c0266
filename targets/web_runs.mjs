/* In a browser: the tests of ipg.mjs, a worker that is ended, then the list of commands; what differs is sent back. */
import { Ipg } from "./ipg.mjs";
import { tests } from "./tests.mjs";

const hex = (bytes) => [...new Uint8Array(bytes)].map((byte) => byte.toString(16).padStart(2, "0")).join("");
const cache = new Map();

async function bytes_of(name) {
  if (!cache.has(name)) {
    const answer = await fetch(`/data/${hex(new TextEncoder().encode(name))}`);
    cache.set(name, new Uint8Array(await answer.arrayBuffer()));
  }
  return cache.get(name);
}

async function fault_of(ipg, run) {
  const files = {};
  for (const name of run.files) files[name] = await bytes_of(name);
  const { status, output } = ipg.run(run.words, files);
  const sum = hex(await crypto.subtle.digest("SHA-256", output));
  if (status === run.status && sum === run.sum) return null;
  return `${JSON.stringify(run.words)}: status ${status}, due ${run.status}; ${output.length} bytes, due ${run.size}`;
}

const ENDLESS = 'S -> U8 S[1, EOI] "x" / U8 S[1, EOI] "y" / "" ;';

function asked(worker, words, files) {
  return new Promise((resolve) => {
    worker.onmessage = ({ data }) => resolve(data);
    worker.onerror = ({ message }) => resolve({ status: message });
    worker.postMessage({ words, files });
  });
}

/* A parse of more steps than anyone waits for is ended from outside, with its worker; another worker answers. */
async function worker_faults() {
  const workers = [0, 1].map(() => new Worker("./web_worker.mjs", { type: "module" }));
  const wait = new Promise((resolve) => setTimeout(resolve, 2000, { status: "none" }));
  const before = await asked(workers[0], ["check", "@gif"], {});
  const endless = await Promise.race([wait, asked(workers[0], ["parse", "g", "f", "--memo", "off"], { g: ENDLESS, f: new Uint8Array(64) })]);
  workers[0].terminate();
  const after = await asked(workers[1], ["check", "@gif"], {});
  workers[1].terminate();
  const got = [before, endless, after].map(({ status }) => status).join();
  return got === "0,none,0" ? [] : [`a worker that is ended: ${got}, due 0,none,0`];
}

const faults = [];
try {
  const ipg = await Ipg.load();
  faults.push(...(await tests(ipg)), ...(await worker_faults()));
  for (const run of await (await fetch("/runs.json")).json()) {
    try {
      const fault = await fault_of(ipg, run);
      if (fault) faults.push(fault);
    } catch (error) {
      faults.push(`${JSON.stringify(run.words)}: ${error}`);
    }
  }
} catch (error) {
  faults.push(String(error.stack ?? error));
}
await fetch("/", { method: "POST", body: JSON.stringify(faults) });
