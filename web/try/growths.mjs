// Asks a host for the newest root of each of three archives, and for the growths between them.
// usage: node growths.mjs BASE ROOT ROOT ROOT GROWTH GROWTH

import { readFileSync } from 'node:fs';
import { Assembler } from '../assembler.mjs';
import { HttpHost } from '../http.mjs';
import { see } from './program.mjs';

const [base, ...words] = process.argv.slice(2), roots = words.slice(0, 3);
const files = words.slice(3).map(name => readFileSync(name));
const assembler = new Assembler([new HttpHost(base)]);
for (const root of roots) see(`the newest of ${root}`, (await assembler.newest({ root }))?.root === roots[2]);
see('no newest of another archive', await assembler.newest({ root: '00'.repeat(32) }) === undefined);
for (const [from, to] of [[0, 1], [1, 2], [0, 2]]) {
  const steps = await assembler.growth({ from: roots[from], to: roots[to] });
  const isStep = (it, i) => it.from === roots[i] && it.to === roots[i + 1] && !Buffer.compare(it.file, files[i]);
  const right = steps.length === to - from && steps.every((it, i) => isStep(it, from + i));
  see(`the growth from ${from} to ${to}`, right);
}
const none = async (from, to) => assembler.growth({ from, to }).then(() => 'steps', fault => fault.word);
see('no growth back', await none(roots[2], roots[0]) === 'missing');
see('no growth from another archive', await none('00'.repeat(32), roots[2]) === 'missing');
