// Checks one proof many times as the page does, in Node, and prints the milliseconds of each check:
// node web/try/times.mjs web/out ROOT R QUERY PROOF TIMES
import { readFileSync } from 'node:fs';
import { bytesOfHex as bytesOf } from '../bytes.mjs';
import { checker } from '../check.mjs';

const [folder, root, r, query, proof, times] = process.argv.slice(2);
const it = checker(await WebAssembly.compile(readFileSync(`${folder}/page.wasm`)));
const bytes = readFileSync(proof);
for (let i = 0; i < Number(times); i++) {
  const { status, line, ms } = it.check(bytes, bytesOf(root), query, Number(r));
  if (status !== 0) {
    console.log(line);
    process.exit(status);
  }
  console.log(ms);
}
