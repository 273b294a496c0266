/* For the type checker alone: what a user of ipg.mjs writes. */
import { Ipg, Refused, NoParse, Tree, IpgError } from "./ipg.mjs";
const ipg: Ipg = await Ipg.load();
const tree: Tree = ipg.grammar("@gif").parse(new Uint8Array(3));
const kid = tree.root.kids[0];
if (kid.kind === "node") console.log(kid.rule, kid.attributes["x"], kid["Head"].size);
const { status, output } = ipg.run(["view", "g", "f"], { g: "S -> ;", f: new Uint8Array(1) });
for (const made of ipg.grammar("x").parse_each(["a"])) if (made instanceof IpgError) console.log(made.status); else console.log(made.length);
console.log(status + output.length);
