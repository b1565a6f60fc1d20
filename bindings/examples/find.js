// Prints all matches of some words in standard input, by Node: node find.js WORD... < TEXT
// find.node is find_node.c, compiled.
const { make, next } = require("./find.node");

const words = process.argv.slice(2).map((it) => Buffer.from(it));
let end = 0n;
const ends = BigUint64Array.from(words, (it) => (end += BigInt(it.length)));
let search;
try {
  search = make(Buffer.concat(words), ends);
} catch (why) {
  console.error(`find: ${why.message}`);
  process.exit(2);
}
const text = require("fs").readFileSync(0), found = new BigUint64Array(3);
while (next(search, text, found)) console.log(found.join(" "));
