// Collections and questions from a seed.

/** Numbers from 0 to n - 1 (mulberry32). */
export function drawer(seed) {
  return n => {
    seed = seed + 0x6d2b79f5 | 0;
    let t = Math.imul(seed ^ seed >>> 15, 1 | seed);
    t = t + Math.imul(t ^ t >>> 7, 61 | t) ^ t;
    return Math.floor(((t ^ t >>> 14) >>> 0) / 2 ** 32 * n);
  };
}

const texts = (count, make) => Array.from({ length: count }, (_, i) => make(i));
/** A word of a vocabulary, the first ones far more often. */
const skewed = (draw, size) => `w${Math.floor(draw(size) * draw(size) / size)}`;
const words = (draw, count, size) => texts(count, () => skewed(draw, size)).join(' ');
/** Word `in<n>` is in the first n texts, so all impacts of its list tie if the texts have one length. */
const firstOnes = (count, lengths) => texts(count, i => lengths.map(n => i < n ? `in${n}` : 'pad').join(' '));
/** Terms t0, t1, .. in 40 texts. */
const numbered = (draw, n) => texts(40, i => texts(n, k => k % 40 === i || draw(8) === 0 ? `t${k}` : '').join(' '));
const named = (numbers, says, make) => Object.fromEntries(numbers.map(n => [`${n} ${says}`, make(n)]));

// Words whose folded terms are known, since none has a boundary within or a case that folds by its neighbours.
const FOREIGN = [
  ['Straße', 'strasse'], ['ΟΔΟΣ', 'οδοσ'], ['ﬁn', 'fin'], ['한국어', '한국어'], ['東', '東'], ['タワー', 'タワー'],
  ['Ⅷ', 'ⅷ'], ['é', 'é'], ['Ωμέγα', 'ωμέγα'], ['Ǆ', 'ǆ'], ['𐐀𐐁', '𐐨𐐩'], ['ЖУК', 'жук'], ['a'.repeat(64), 'a'.repeat(64)]
];
export const folded = new Map(FOREIGN);

/** For each collection its texts. */
export function collections(seed) {
  const draw = drawer(seed), edges = [1, 2, 63, 64, 65, 127, 128, 129, 192];
  const random = (count, most, size) => texts(count, () => words(draw, 1 + draw(most), size));
  return {
    three: ['red fox', 'red red hen', 'blue hen'],
    none: ['!!'],
    one: ['a a b'],
    copies: texts(200, () => 'a'),
    edges: firstOnes(200, edges),
    'edges, longer and longer': firstOnes(200, edges).map((text, i) => text + ' x'.repeat(i)),
    'edges of the first read':
      firstOnes(4200, [1023, 1024, 1025, 2047, 2048, 2049, 3071, 3072, 3073, 4096, 4097, 4160]),
    ties: random(500, 6, 12),
    'many ties': random(3000, 3, 8),
    short: random(700, 12, 60),
    middle: random(5000, 24, 3000),
    'long and short': texts(400, i => words(draw, i % 40 === 0 ? 2000 : 5, 400)),
    ...named([60, 61, 62, 63, 64, 125, 126, 127, 190], 'terms', n => numbered(draw, n)),
    ...named([3, 4, 5, 7, 8, 9, 17, 63, 64, 65, 97, 1023, 1025], 'documents', n => random(n, 8, 30)),
    'beyond ASCII':
      texts(150, () => texts(1 + draw(6), () => FOREIGN[draw(FOREIGN.length)][0]).join(' ') + (draw(3) ? '' : ' a')),
    'pages of 128 leaves': texts(62, i => texts(1000, k => `t${i * 1000 + k}`.padEnd(60, 'x')).join(' ')),
    empty: ['', 'a', '', 'a'.repeat(65)],
  };
}

const isAscii = word => /^[\x21-\x7e]+$/.test(word);
const ROWS = [1, 1, 2, 3, 5, 10, 10, 20, 63, 64, 65, 100, 200, 500, 999, 1000];

/** A query of the words of some texts, of absent ones, and of repeated ones; and how many rows. */
export function question(draw, texts) {
  const some = () => {
    const found = texts[draw(texts.length)].split(' '), word = found[draw(found.length)];
    return isAscii(word) || folded.has(word) ? word : 'a';
  };
  const longer = word => isAscii(word) ? word + 'x' : word;
  const absent = () => ['zzz', '0', 'A', 'nope', `w${draw(5000)}`, `t${draw(300)}`, 'a'.repeat(1 + draw(64)), 'zż',
    longer(some())][draw(9)];
  const chosen =
    Array.from({ length: 1 + [0, 0, 1, 1, 2, 2, 3, 4, 6, 30][draw(10)] }, () => draw(6) === 0 ? absent() : some());
  if (draw(4) === 0) for (let i = draw(20); i >= 0; i--) chosen.push(chosen[draw(chosen.length)]);
  return { query: chosen.join(' '), r: draw(3) === 0 ? 1 + draw(1000) : ROWS[draw(ROWS.length)] };
}
