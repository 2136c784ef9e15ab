// The checks from JavaScript in Node, by the module that web/make.sh makes. It prints what check.c prints for the same
// words, and ends with its status: node check.mjs page.wasm verify ROOT R QUERY PROOF
import { readFileSync } from 'node:fs';
import { bytesOfHex as bytesOf } from '../web/bytes.mjs';
import { checker, compile, linesOf } from '../web/check.mjs';

const [module, command, ...words] = process.argv.slice(2);
const it = await checker(await compile(readFileSync(module)));
const file = () => new Uint8Array(readFileSync(words.at(-1)));

// The roots that the lines of a list spell. A bad one ends the program.
function roots() {
  const lines = new TextDecoder('latin1').decode(file()).replace(/\n$/, '').split('\n');
  const bad = lines.length > 4096 ? 4096 : lines.findIndex(line => !/^[0-9a-f]{64}$/.test(line));
  if (bad === -1) return lines.map(bytesOf);
  console.log(`input: list line ${bad + 1}`);
  return process.exit(4);
}

const got = {
  verify: () => it.check(file(), bytesOf(words[0]), words[2], Number(words[1])),
  both: () => it.both(file(), bytesOf(words[0]), words[1]),
  fetch: () => it.text(file(), bytesOf(words[0]), Number(words[1])),
  growth: () => it.growth(file(), bytesOf(words[0]), bytesOf(words[1])),
  query: () => it.query(words[0]),
  catalog: () => it.catalog(file(), bytesOf(words[0]), words[2], Number(words[1])),
  'catalog-root': () => it.catalogRoot(roots()),
}[command]();

const text = lines => new TextEncoder().encode(lines.map(line => `${line}\n`).join(''));
const of = bytes => new TextDecoder().decode(bytes);
if (got.status === 0 && command === 'fetch') process.stdout.write(Buffer.concat([got.text, text([''])]));
else if (got.status === 0 && command === 'query') process.stdout.write(text(got.terms.map(({ term, weight }) => `${of(term)} ${weight}`)));
else process.stdout.write(text(linesOf(got)));
process.exitCode = got.status;
