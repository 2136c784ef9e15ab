// The terms of the trial's own queries. A stand-in for the proved module, which the page uses: it knows ASCII, by
// docs/client.md, and the words of collections.mjs.

import { compareBytes } from '../bytes.mjs';
import { folded } from './collections.mjs';

const RUN = /[A-Za-z0-9_]+(?:(?:(?<=[A-Za-z])['.:](?=[A-Za-z])|(?<=[0-9])['.,;](?=[0-9]))[A-Za-z0-9_]+)*/g;
const bytesOf = text => new TextEncoder().encode(text);
const runs = text => (text.match(RUN) ?? []).filter(run => /[A-Za-z0-9]/.test(run)).map(run => run.toLowerCase());
const lowered = word => /^[\0-\x7f]*$/.test(word) ? runs(word) : [folded.get(word) ?? word];

/** The words of a text of ASCII in their order. */
export const wordsOf = text => runs(text).filter(word => word.length <= 64);

/** The distinct terms in byte order, with how often each occurs; undefined if the query breaks a limit. */
export function termsOf(query) {
  const weights = new Map();
  for (const word of query.split(' ').flatMap(lowered))
    if (bytesOf(word).length <= 64) weights.set(word, (weights.get(word) ?? 0) + 1);
  const terms = Array.from(weights, ([word, weight]) => ({ term: bytesOf(word), weight }));
  terms.sort((a, b) => compareBytes(a.term, b.term));
  const all = terms.reduce((sum, { weight }) => sum + weight, 0);
  return terms.length >= 1 && terms.length <= 32 && all <= 255 && bytesOf(query).length <= 4000 ? terms : undefined;
}
