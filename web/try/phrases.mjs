// Compares the order of words as the page has it with a plain program's, over collections of real texts, and phrases
// with it. The plain program knows ASCII; other signs are made spaces first. Then times a text of hits only. usage:
// node phrases.mjs TEXTS.json..

import { readFileSync } from 'node:fs';
import { Reading } from '../reading.mjs';
import { collections, drawer, folded } from './collections.mjs';
import { checkOf } from './module.mjs';
import { see } from './program.mjs';
import { wordsOf } from './terms.mjs';

const PHRASES = 20, LONGEST_MS = 3000;
const check = await checkOf(), reading = new Reading(check.query), draw = drawer(7);

const same = (a, b) => a.length === b.length && a.every((it, i) => it === b[i]);
const stands = (words, phrase) => words.some((_, i) => phrase.every((word, k) => words[i + k] === word));

function compare(name, texts) {
  const plain = texts.map(wordsOf), other = texts.findIndex((text, i) => !same(reading.sequence(text), plain[i]));
  const count = plain.reduce((sum, words) => sum + words.length, 0);
  see(`${name}: the words of ${texts.length} texts in their order, ${count} of them`, other < 0,
    other < 0 ? '' : ` but text ${other}`);
  let hits = 0, wrong = 0;
  for (let i = 0; i < PHRASES; i++) {
    const from = plain[draw(plain.length)], at = draw(Math.max(from.length - 3, 1));
    const phrase = from.slice(at, at + 2 + draw(2));
    if (phrase.length < 2) continue;
    if (draw(4) === 0) phrase.reverse();
    const asked = reading.sequence(phrase.join(' '));
    texts.forEach((text, k) => {
      if (!plain[k].includes(phrase[0])) return;
      const is = stands(plain[k], phrase);
      hits += Number(is);
      if (reading.holds(text, [asked]) !== is) wrong++;
    });
  }
  see(`${name}: ${PHRASES} phrases, which stand ${hits} times`, wrong === 0, wrong ? ` but ${wrong}` : '');
}

for (const file of process.argv.slice(2)) {
  const texts = JSON.parse(readFileSync(file, 'utf8')).map(it => (it.text ?? it).replace(/[^\0-\x7f]/g, ' '));
  compare(file.replace(/.*\//, ''), texts);
}
const foreign = collections(1)['beyond ASCII'];
const known = foreign.map(text => text.split(' ').map(word => folded.get(word) ?? word));
see('words beyond ASCII', foreign.every((text, i) => same(reading.sequence(text), known[i])));
see('signs without spaces', same(reading.sequence('漢字'.repeat(400)), [...'漢字'.repeat(400)]));

/** Milliseconds of the processor, of which other work takes none. */
const spent = () => {
  const { user, system } = process.cpuUsage();
  return (user + system) / 1000;
};
const hits = 'a '.repeat(2 ** 19), start = spent(), { count } = reading.whole(hits, [['a']]);
reading.excerpt(hits, [['a']], false);
const ms = spent() - start;
see('1 MiB of hits', count === 2 ** 19 && ms < LONGEST_MS, ` in ${Math.round(ms)} ms`);
const long = 'a-'.repeat(2 ** 19), begun = spent(), all = reading.sequence(long).length, later = spent() - begun;
see('1 MiB without a space', all === 2 ** 19 && later < 10 * LONGEST_MS, ` in ${Math.round(later)} ms`);
const one = reading.sequence('x'.repeat(2 ** 20));
see('1 MiB of one word', one.length === 0);
