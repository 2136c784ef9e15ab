// Compares assembled bytes with the program's, over collections from a seed.
// usage: node compare.mjs PROGRAM SEED QUESTIONS ROOM    QUESTIONS of each collection; ROOM is a folder for files

import { readFileSync, writeFileSync } from 'node:fs';
import { Assembler } from '../assembler.mjs';
import { collections, drawer, question } from './collections.mjs';
import { FolderHost } from './folder.mjs';
import { checkOf } from './module.mjs';
import { archive, run, serve } from './program.mjs';
import { termsOf } from './terms.mjs';

const [program, seedWord, questionsWord, room] = process.argv.slice(2);
const seed = Number(seedWord), questions = Number(questionsWord), at = name => `${room}/${name}`;

// The program loads the index for each of its commands, which takes too long to do often.
const EVERY_PROOF = 40, EVERY_BOTH = 12, TEXTS = Math.min(questions >> 2, 30);
const totals = { proofs: 0, both: 0, texts: 0 }, check = await checkOf();
console.log(check ? 'each answer goes through the module of the page, which also gives the terms'
                  : 'skipped: the module of the page (web/out) is not made');

function same(kind, name, what, ours, theirs) {
  if (Buffer.compare(ours, theirs)) {
    writeFileSync(at('ours'), ours);
    writeFileSync(at('theirs'), theirs);
    throw new Error(`${kind}: other bytes over ${name}: ${JSON.stringify(what)}; see ours and theirs in ${room}`);
  }
  totals[kind]++;
}

/** The bytes that a command stores, or undefined if it refuses. */
function stored(command, index, ...words) {
  return run(program, command, index, ...words, at('stored')).status === 0 ? readFileSync(at('stored')) : undefined;
}

async function compareProofs(assembler, root, name, index, asked) {
  const server = await serve(program, index), theirs = [];
  // All at once, since the server ends a link that is silent for 30 seconds.
  for (const { query, r } of asked) theirs.push(await server.prove(r, query));
  await server.end();
  for (const [i, { query, r }] of asked.entries()) {
    const terms = termsOf(query), [ours] = await assembler.ranked({ roots: [root], terms, r });
    same('proofs', name, { query, r }, ours, theirs[i]);
    check?.ranked(ours, root, query, terms, r);
  }
}

async function compare(name, texts) {
  const draw = drawer(seed + 1), root = archive(program, texts, room), index = at('index2');
  const assembler = new Assembler([new FolderHost(at('folder'))], { limits: { documents: 65536 } });
  const asked = Array.from({ length: questions }, () => question(draw, texts)).filter(({ query }) => termsOf(query));
  await compareProofs(assembler, root, name, index, asked);
  for (const [i, { query, r }] of asked.entries()) {
    const terms = termsOf(query);
    if (i % EVERY_PROOF === 0) {
      const [ours] = await assembler.ranked({ roots: [root], terms, r });
      same('proofs', name, { query, r }, ours, stored('prove', index, 'tnra', `${r}`, query));
    }
    const all = i % EVERY_BOTH === 0 && stored('prove-both', index, query);
    if (!all) continue;
    const [ours] = await assembler.both({ roots: [root], terms });
    same('both', name, query, ours, all);
    check?.both(ours, root, query);
  }
  for (let i = 0; i < Math.min(texts.length, TEXTS); i++) {
    const doc = texts.length <= TEXTS ? i : draw(texts.length);
    const ours = await assembler.text({ root, doc });
    same('texts', name, doc, ours, stored('give', index, `${doc}`));
    check?.text(ours, root, doc);
  }
  const { proofs, both, texts: files } = totals;
  console.log(`${name}: ${texts.length} documents; so far equal: ${proofs} proofs, ${both} of all, ${files} texts`);
}

for (const [name, texts] of Object.entries(collections(seed))) await compare(name, texts);
