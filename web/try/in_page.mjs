// In a browser: asks a source, as the page does, what answers.mjs drew, and compares. Returns what was seen.

import { bytesOfHex, hex } from './bytes.mjs';
import { Calls } from './calls.mjs';

const digestOf = async bytes => hex(new Uint8Array(await crypto.subtle.digest('SHA-256', bytes)));
const termsOf = terms => terms.map(({ term, weight }) => ({ term: bytesOfHex(term), weight }));

const asked = (source, { call, words: { terms, ...words } }, how) =>
  source.call(call, terms ? { ...words, terms: termsOf(terms) } : words, how);

/** Does something with a source of hosts, with spaces between, and how long it took. */
async function timed(place, act) {
  const worker = new Worker('/worker.mjs', { type: 'module' });
  const source = new Calls(() => worker, { bases: place.split(' ') }, true);
  const start = performance.now(), got = await act(source), ms = Math.round(performance.now() - start);
  await new Promise(done => setTimeout(done, 200)); // what is kept is stored within a moment
  worker.terminate();
  return { ...got, ms };
}

/** Forgets what the browser keeps. */
const emptied = () => new Promise((done, failed) => {
  const request = indexedDB.deleteDatabase('ats-ranges');
  request.onsuccess = done;
  request.onerror = request.onblocked = failed;
});

/** Asks all, four at a time. Returns how many were equal, what failed, and how long it took. */
export async function compare(place, questions, isKept) {
  if (!isKept) await emptied();
  const failed = [], left = [...questions.entries()];
  let equal = 0, progress = 0;
  const run = async source => {
    while (left.length) {
      const [i, it] = left.shift();
      try {
        const got = await asked(source, it, { progress: () => { progress++; } });
        if (await digestOf([got].flat()[0]) === it.digest) equal++;
        else failed.push(`${i} ${it.call}: other bytes`);
      } catch (fault) {
        failed.push(`${i} ${it.call}: ${fault.word ?? fault.name} ${fault.line ?? fault.message}`);
      }
    }
  };
  const { ms } = await timed(place, source => Promise.all([1, 2, 3, 4].map(() => run(source))));
  return { equal, failed: failed.slice(0, 5), progress, ms };
}

/** The word of the fault with which a question ends, and after how long. */
export const fault = (place, it, stopAfter) => timed(place, async source => {
  const stopper = new AbortController(), { signal } = stopper;
  if (stopAfter) setTimeout(() => stopper.abort(), stopAfter);
  return { word: await asked(source, it, { signal }).then(() => 'none', fault => fault.word ?? fault.name) };
});
