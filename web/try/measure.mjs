// Requests, rounds, bytes, milliseconds, those of the processor, and those of the check, of questions.
// usage: node measure.mjs BASE ROOT WORDS.json [ROUND_TRIP_MS BYTES_PER_MS]
// BASE is an address; ROOT is an archive's or a catalog's; WORDS.json has the words of the texts, the most frequent
// first. The heads are read before.

import { readFileSync } from 'node:fs';
import { Assembler } from '../assembler.mjs';
import { catalogFile } from '../shown.mjs';
import { HttpHost } from '../http.mjs';
import { checkOf } from './module.mjs';
import { termsOf } from './terms.mjs';

const [base, root, wordsFile, trip = 0, rate = Infinity] = process.argv.slice(2);
const words = JSON.parse(readFileSync(wordsFile)), last = words.length - 1, times = trip ? 3 : 5;
const pause = ms => new Promise(done => setTimeout(done, ms));

/**
 * Counts what a host reads, and makes it far: each read waits for the trip and for its bytes. A round is a set of reads
 * of which none began after another of them had ended.
 */
class Counting {
  constructor(host) {
    Object.assign(this, { host, running: 0, ended: true });
    this.zero();
  }
  zero() { this.count = { requests: 0, rounds: 0, bytes: 0 }; }
  async read(...range) {
    const { count } = this;
    count.requests++;
    if (this.ended) { count.rounds++; this.ended = false; }
    try {
      const bytes = await this.host.read(...range);
      count.bytes += bytes.length;
      if (trip) await pause(Number(trip) + bytes.length / Number(rate));
      return bytes;
    } finally {
      this.ended = true;
    }
  }
  forget() {}
}

/** Keeps the head only. */
const headOnly = () => {
  const kept = new Map();
  return {
    get: async key => kept.get(key),
    put(key, bytes) {
      if (key.includes('/head ')) kept.set(key, bytes);
    },
    async forget() {}
  };
};

const plain = new HttpHost(base), check = await checkOf();
const roots = await new Assembler([plain]).roots({ root }), isMany = roots[0] !== root;
/** What is asked too much for one question is said so. */
const measured = (...words) => measure(...words).catch(fault => {
  if (fault.word !== 'input') throw fault;
  console.log(`| ${words[0]} | ${fault.line} |`);
});

async function measure(label, ask, judge) {
  const host = new Counting(plain), assembler = new Assembler([host], { cache: headOnly() }), found = [];
  await assembler.ranked({ roots, r: 1, terms: termsOf('zzzz') });
  let got;
  for (let i = 0; i < times; i++) {
    host.zero();
    const start = performance.now(), before = process.cpuUsage();
    got = await ask(assembler);
    const { user, system } = process.cpuUsage(before);
    found.push([performance.now() - start, (user + system) / 1000]);
  }
  const { requests, rounds, bytes: fetched } = host.count;
  const middle = i => found.map(it => it[i]).sort((a, b) => a - b)[times >> 1].toFixed(0);
  const bytes = [got].flat().reduce((sum, { length }) => sum + length, 0);
  console.log(`| ${label} | ${bytes} | ${requests} / ${rounds} | ${fetched} | ${middle(0)} | ${middle(1)} `
    + `| ${judge && check ? judge(got).toFixed(0) : ''} |`);
}

const queryOf = places => places.map(place => words[place] ?? place).join(' ');
const ranked = (label, ...places) => measured(label, it => it.ranked({ roots, r: 10, terms: termsOf(queryOf(places)) }),
  proofs => check.milliseconds(isMany ? catalogFile(roots, proofs) : proofs[0], root, queryOf(places), 10, isMany));
const both = (label, ...places) => measured(label, it => it.both({ roots, terms: termsOf(queryOf(places)) }));
const FIVE = [10, 30, 100, 300, 1000];
console.log(`| question | bytes | requests / rounds | fetched | ms | processor ms | check ms |\n${'|---'.repeat(7)}|`);
await ranked('the most frequent word', 0);
await ranked('the two most frequent', 0, 1);
await ranked('a rare word', last);
await ranked('an absent word', 'zzzz');
await ranked('the most frequent and a rare one', 0, last);
await ranked('five words', ...FIVE);
await measured('a text', it => it.text({ root: roots[0], doc: 0 }));
await both('all documents, with a rare word', 0, last);
await both('all documents, with one of the 3,000 most frequent', 0, 3000);
await both('all documents, with one of the 1,000 most frequent', 0, 1000);
