// Catalogs of some archives: answers that the program accepts, and whose rows are those of a plain merge of the ranks
// of each archive; all documents with every word. usage: node catalogs.mjs PROGRAM SEED QUESTIONS ROOM

import { copyFileSync, writeFileSync } from 'node:fs';
import { Assembler } from '../assembler.mjs';
import { catalogFile, proofsIn } from '../shown.mjs';
import { Fault } from '../fault.mjs';
import { collections, drawer, question } from './collections.mjs';
import { FolderHost } from './folder.mjs';
import { archive, run } from './program.mjs';
import { termsOf } from './terms.mjs';

const [program, seedWord, questions, room] = process.argv.slice(2), seed = Number(seedWord);
const at = name => `${room}/${name}`;
const assembler = new Assembler([new FolderHost(at('folder'))]), MOST_ROWS = 1000;
let failed = 0, rows = 0, files = 0;

function see(about, right, got) {
  if (right) return;
  failed++;
  console.log(`OTHERWISE: ${about}: ${got.slice(0, 300)}`);
}

/** An archive of these texts: its root and its collection. */
function shardOf(texts, i) {
  const root = archive(program, texts, room), collection = at(`${i}.json`);
  copyFileSync(at('texts.json'), collection);
  return { root, collection };
}

const linesOf = out => out.trim().split('\n').filter(Boolean).map(line => line.split(' '));
const printed = (...words) => linesOf(run(program, ...words).out);

/** The scores of all documents that have any: of each its shard, its number, and its score. */
const plain = (shards, query) => shards.flatMap(({ collection }, shard) =>
  printed('rank', collection, `${MOST_ROWS}`, query).map(([, doc, score]) => ({ shard, doc, score: Number(score) })))
  .sort((a, b) => b.score - a.score);

/** Whether these rows of the program are a top answer of what is plain. */
function isTop(found, best, r) {
  const scores = new Map(best.map(({ shard, doc, score }) => [`${shard} ${doc}`, score]));
  const wanted = best.slice(0, r);
  return found.length === wanted.length && found.every(([, shard, doc, lower, upper], i) => {
    const score = scores.get(`${shard} ${doc}`);
    return score === wanted[i].score && Number(lower) <= score && score <= Number(upper);
  });
}

async function compare(name, parts) {
  const draw = drawer(seed), shards = parts.map(shardOf), roots = shards.map(({ root }) => root);
  writeFileSync(at('roots.txt'), roots.join('\n'));
  const [[root]] = printed('catalog-root', at('roots.txt'));
  for (let i = 0; i < Number(questions); i++) {
    const { query, r } = question(draw, parts.flat()), terms = termsOf(query);
    if (!terms) continue;
    const file = catalogFile(roots, await assembler.ranked({ roots, terms, r }));
    writeFileSync(at('proof'), file);
    const { status, out } = run(program, 'catalog', root, `${r}`, query, at('proof'));
    const found = linesOf(out);
    see(`${name}, ${r} of ${query}`, status === 0 && isTop(found, plain(shards, query), r), out);
    rows += found.length;
    files++;
    see('its proofs', proofsIn(file).length === roots.length, query);
    await compareAll(name, shards, terms, query);
  }
  console.log(`${name}: ${roots.length} archives; so far ${files} files, ${rows} rows, ${failed} otherwise`);
}

/** All documents with every word, of each archive by itself. */
async function compareAll(name, shards, terms, query) {
  const roots = shards.map(({ root }) => root);
  const proofs = await assembler.both({ roots, terms }).catch(fault => {
    if (fault instanceof Fault && fault.word === 'input') return undefined; // too much for one question
    throw fault;
  });
  proofs?.forEach((proof, i) => {
    writeFileSync(at('both'), proof);
    const { status, out } = run(program, 'both', roots[i], query, at('both'));
    see(`${name}, all of ${query} in ${i}`, status === 0, out);
  });
}

const { three, none, middle, 'many ties': ties, copies, 'long and short': uneven, short } = collections(seed);
const quarter = texts => [0, 1, 2, 3].map(i => texts.slice(i * texts.length >> 2, (i + 1) * texts.length >> 2));
await compare('small ones, one without a word', [three, none, [...three, 'fox hen'], ['fox', 'red', 'fox']]);
await compare('one archive', [three]);
await compare('equal ones', [copies, copies, copies]);
await compare('ties', quarter(ties.slice(0, 800)));
await compare('uneven ones', [uneven, short, middle.slice(0, 900)]);
await compare('sixteen', quarter(middle.slice(0, 3200)).flatMap(quarter));
process.exitCode = failed ? 1 : 0;
