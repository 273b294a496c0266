/* In a worker: runs a command for each message, and answers with what came of it. */
import { Ipg } from "./ipg.mjs";
const ipg = Ipg.load();
onmessage = async ({ data: { words, files } }) => postMessage((await ipg).run(words, files));
