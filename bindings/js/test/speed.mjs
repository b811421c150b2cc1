// Prints the processor time of calls in milliseconds, for `tools/javascript --speed`: `node test/speed.mjs MODULE <TEXTS`, which are a short and
// a long text in JSON. The first two numbers are the time that passes from loading to the first answer, and its processor time, which has that of
// threads that compile; the others are the least of several rounds.
import { readFileSync } from "node:fs";
import { init, parse } from "../index.js";

const time = () => (process.cpuUsage().user + process.cpuUsage().system) / 1000;
const [short, long] = JSON.parse(readFileSync(0, "utf8"));
const start = [performance.now(), time()];
await init(readFileSync(process.argv[2]));
parse(short);
const first = [performance.now() - start[0], time() - start[1]];

/** The least time of one of `count` calls in a row. */
function least(rounds, count, text) {
  let best = Infinity;
  for (let round = 0; round < rounds; round += 1) {
    const before = time();
    for (let call = 0; call < count; call += 1) parse(text);
    best = Math.min(best, (time() - before) / count);
  }
  return best;
}

console.log(JSON.stringify([...first, least(20, 1000, short), least(10, 1, long)]));
