// Draws questions over the folder of an archive and answers them, for comparing elsewhere: prints a list of
// { call, words, digest }, with terms and digests in hexadecimal.
// usage: node answers.mjs FOLDER ROOT TEXTS.json SEED COUNT

import { createHash } from 'node:crypto';
import { readFileSync } from 'node:fs';
import { Assembler } from '../assembler.mjs';
import { hex } from '../bytes.mjs';
import { drawer, question } from './collections.mjs';
import { FolderHost } from './folder.mjs';
import { termsOf } from './terms.mjs';

const [folder, root, textsFile, seed, count] = process.argv.slice(2), draw = drawer(Number(seed));
const texts = JSON.parse(readFileSync(textsFile)), assembler = new Assembler([new FolderHost(folder)]);
const found = [];
while (found.length < Number(count)) {
  const { query, r } = question(draw, texts), terms = termsOf(query);
  const call = ['ranked', 'ranked', 'ranked', 'both', 'text'][draw(5)];
  if (!terms) continue;
  const roots = [root], doc = draw(texts.length);
  const words = { ranked: { roots, terms, r }, both: { roots, terms }, text: { root, doc } }[call];
  const got = await assembler[call](words).catch(() => undefined); // too much for one proof of all documents
  if (!got) continue;
  const bytes = call === 'text' ? got : got[0];
  const asked = words.terms ? { ...words, terms: terms.map(it => ({ ...it, term: hex(it.term) })) } : words;
  found.push({ call, words: asked, digest: createHash('sha256').update(bytes).digest('hex') });
}
console.log(JSON.stringify(found));
