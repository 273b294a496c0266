/* Tests of ipg.mjs by values worked by hand: a list of what differs. They run wherever a module does. */
import { Input, Ipg, NoParse, OutOfMemory, Refused } from "./ipg.mjs";

const GRAMMAR = `S -> "N" U8 {size = U8.val} Bytes[size] many Pair ;
Pair -> U16BE U8 {sum = U16BE.val + U8.val} ;
`;
const INPUT = Uint8Array.of(0x4e, 2, 0x68, 0x69, 1, 0, 5, 0, 7, 1);

function thrown(body) {
  try {
    body();
  } catch (error) {
    return error;
  }
  return null;
}

function tree_tests(want, ipg) {
  const grammar = ipg.grammar(GRAMMAR);
  const { root } = grammar.parse(INPUT);
  want("rules", grammar.rules.join(), "S,Pair");
  want("root", [root.rule, root.from, root.to, root.start, root.end].join(), "S,0,10,0,10");
  want("kinds", root.kids.map((kid) => kid.kind).join(), "terminal,number,bytes,repetition");
  want("an attribute", root.size, 2);
  want("a number", root.kids[1].value, 2);
  want("places", [root.kids[2].from, root.kids[2].to].join(), "2,4");
  const pairs = root.kids[3].items;
  want("items", pairs.map((pair) => pair.sum).join(), "261,8");
  want("a kid by its name", root.Pair.kind, "repetition");
  const tree = grammar.parse(INPUT.buffer);
  want("rows", [tree.length, tree.rows.byteLength].join(), [14, 14 * 72].join());
  want("room for more rows than there are", grammar.parse(INPUT, 999).length, 14);
  want("a large number", ipg.grammar("S -> U64BE ;").parse(new Uint8Array(8).fill(255)).root.kids[0].value, 2n ** 64n - 1n);
  want("a negative value", ipg.grammar("S -> {a = 0 - 5} ;").parse("").root.attributes.a, -5);
  const each = grammar.parse_each([INPUT, "M", INPUT]);
  want("each of several", each.map((made) => made instanceof NoParse || made.length).join(), "14,true,14");
}

function error_tests(want, ipg) {
  const refused = thrown(() => ipg.grammar('S -> "a" ;\nT -> Raw ;\n'));
  want("a refusal", [refused instanceof Refused, refused.status, refused.line, refused.column].join(), "true,2,2,6");
  const none = thrown(() => ipg.grammar(GRAMMAR).parse(Uint8Array.of(0x4e, 9, 1)));
  want("no parse", [none instanceof NoParse, none.status, none.at, none.rule].join(), "true,1,2,S");
  const range = thrown(() => ipg.grammar("S -> {a = 9223372036854775807} {b = a + 1} ;").parse(""));
  want("range", range.status, 3);
  want("no such file", ipg.run(["parse", "@gif", "gone"]).status, 5);
  want("bytes of no kind", thrown(() => ipg.grammar(GRAMMAR).parse(7)) instanceof TypeError, true);
  want("too much for the module", thrown(() => ipg.input(2 ** 45)) instanceof OutOfMemory, true);
}

/* A call that traps throws, and the next one has a new memory. */
async function stop_tests(want, ipg) {
  const input = ipg.input(3);
  const stop = thrown(() => ipg.call((memory) => memory.exports.ipg_done(2n ** 50n)));
  want("a stop", stop instanceof OutOfMemory, true);
  want("a call after it", ipg.run(["check", "@gif"]).status, 0);
  want("an input of before", thrown(() => ipg.grammar("@gif").parse(input)) instanceof TypeError, true);
  const fault = await Ipg.load(Uint8Array.of(1, 2, 3)).catch((error) => error);
  want("what is no module", fault.status, 69);
}

/* What is freed is gone, and many parses leave nothing behind. */
function memory_tests(want, ipg) {
  const grammar = ipg.grammar(GRAMMAR);
  const input = ipg.input(INPUT.length);
  input.bytes.set(INPUT);
  want("an input in the module", [input instanceof Input, grammar.parse(input).root.size].join(), "true,2");
  input.free();
  want("a freed input", thrown(() => grammar.parse(input)) instanceof TypeError, true);
  const parse = (count) => {
    for (let k = 0; k < count; k++) grammar.parse(INPUT);
    for (let k = 0; k < count / 100; k++) thrown(() => grammar.parse("M"));
  };
  parse(100);
  const before = ipg.memory;
  parse(10000);
  want("memory after 10,000 parses", ipg.memory, before);
}

async function blob_tests(want, ipg) {
  const input = await ipg.read(new Blob([INPUT.subarray(0, 3), INPUT.subarray(3)]));
  want("a blob", ipg.grammar(GRAMMAR).parse(input).length, 14);
  input.free();
  const before = ipg.memory;
  const large = ipg.input(2 ** 30);
  large.bytes.set(INPUT);
  const tree = ipg.grammar('S -> "N" U8 {size = U8.val} Bytes[size] Rest[4, EOI] ;\nRest -> Bytes ;').parse(large);
  want("an input of 1 GiB", tree.root.Rest.to, 2 ** 30);
  want("no second copy of it", ipg.memory - before < 1.2 * 2 ** 30, true);
  large.free();
}

export async function tests(ipg) {
  const faults = [];
  const want = (what, got, due) => got === due || faults.push(`ipg.mjs: ${what}: ${got}, due ${due}`);
  want("the target", Ipg.target, "wasm64");
  for (const part of [tree_tests, error_tests, stop_tests, memory_tests, blob_tests]) {
    try {
      await part(want, ipg);
    } catch (error) {
      faults.push(`ipg.mjs: ${part.name}: ${error.stack}`);
    }
  }
  return faults;
}
