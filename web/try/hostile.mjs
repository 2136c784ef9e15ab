// Hosts that lie about what they read: changed, cut, swapped, old, mixed, endless or failing reads. Each question must
// end in a Fault with a word, or in the honest bytes. usage: node hostile.mjs PROGRAM SEED TRIALS ROOM

import { Assembler } from '../assembler.mjs';
import { joined } from '../bytes.mjs';
import { MemoryCache } from '../cache.mjs';
import { Fault } from '../fault.mjs';
import { collections, drawer, question } from './collections.mjs';
import { FolderHost } from './folder.mjs';
import { archive } from './program.mjs';
import { termsOf } from './terms.mjs';

const [program, seed, trials, room] = process.argv.slice(2);
const draw = drawer(Number(seed)), honest = new FolderHost(`${room}/folder`);

const changed = change => ({ bytes }) => {
  const copy = Uint8Array.from(bytes);
  change(copy, bytes);
  return copy;
};
const FILES = ['head', 'lists', 'dictionary', 'texts', 'texts-tree', 'documents-tree', 'terms'];
const elsewhere = new Map();
/** Each answers what the host gives for a read of `bytes`. */
const lies = {
  'one bit': changed(copy => { copy[draw(copy.length)] ^= 1 << draw(8); }),
  'few bytes': changed(copy => { for (let i = 0; i < 4; i++) copy[draw(copy.length)] = draw(256); }),
  'a byte at the front': changed(copy => { copy[draw(Math.min(copy.length, 20))] = draw(256); }),
  'the last byte': changed(copy => { copy[copy.length - 1] ^= 1 + draw(255); }),
  'two parts swapped': changed((copy, bytes) => {
    const size = 1 + draw(40), a = draw(bytes.length), b = draw(bytes.length);
    copy.set(bytes.subarray(a, a + size).subarray(0, bytes.length - b), b);
    copy.set(bytes.subarray(b, b + size).subarray(0, bytes.length - a), a);
  }),
  cut: ({ bytes }) => bytes.slice(0, draw(bytes.length)),
  'nothing': () => new Uint8Array(0),
  zeros: ({ bytes }) => new Uint8Array(bytes.length),
  ones: ({ bytes }) => new Uint8Array(bytes.length).fill(255),
  noise: ({ bytes }) => Uint8Array.from(bytes, () => draw(256)),
  'too many bytes': ({ bytes }) => Uint8Array.of(...bytes, 1, 2, 3),
  'a shifted range': ({ path, from, to }) => honest.read(path, from + 1, to + 1),
  'the start of the file': ({ path, from, to }) => honest.read(path, 0, to - from),
  'the same range of an old or new archive': ({ own, path, from, to }) =>
    honest.read(path.replace(own.root, own.other.root), from, to),
  'the same range of another file': ({ path, from, to }) =>
    honest.read(path.replace(/[^/]*$/, FILES[draw(FILES.length)]), from, to),
  'what another read of the file got': ({ path, bytes }) => elsewhere.get(path) ?? bytes,
  failing: () => { throw new Fault('link', 'host: gone'); },
};

/** A host that lies at one read in `one`, so that some lies come late. */
function lying(own, lie, one) {
  return {
    async read(path, from, to, question) {
      const bytes = await honest.read(path, from, to, question);
      const answer = draw(one) === 0 && bytes.length > 0 ? await lies[lie]({ own, path, from, to, bytes }) : bytes;
      elsewhere.set(path, bytes);
      return answer;
    },
    forget() {},
  };
}

const kinds = {
  ranked: (assembler, own, { terms, r }) => assembler.ranked({ roots: [own.root], terms, r }).then(([proof]) => proof),
  catalog: (assembler, own, { terms, r }) =>
    assembler.ranked({ roots: [own.root, own.other.root], terms, r }).then(joined),
  both: (assembler, own, { terms }) => assembler.both({ roots: [own.root], terms }).then(([proof]) => proof),
  text: (assembler, own, { doc }) => assembler.text({ root: own.root, doc }),
};

/** What comes of a question to a liar: `ask` has the honest bytes to compare with. */
async function outcomeOf(ask, hosts, cache) {
  try {
    const bytes = await ask(new Assembler(hosts, { cache, limits: { total: 20000 } }));
    return Buffer.compare(bytes, await ask(new Assembler([honest]))) ? 'OTHER BYTES' : 'honest';
  } catch (fault) {
    const isNamed = fault instanceof Fault && fault.word && /^(host|input): [ -~]+$/.test(fault.line);
    return isNamed ? `fault ${fault.word}` : `NO FAULT: ${fault.stack}`;
  }
}

const { middle, edges, 'long and short': uneven } = collections(3);
const prepared = texts => ({ texts, root: archive(program, texts, room) });
const archives = [middle, edges, uneven]
  .map(texts => ({ ...prepared(texts), other: prepared([...texts, 'one more']) }));
const found = {}, count = (name, outcome) => { (found[name] ??= {})[outcome] = (found[name][outcome] ?? 0) + 1; };
let wrong = 0;
for (let i = 0; i < Number(trials); i++) {
  const own = archives[draw(archives.length)], lie = Object.keys(lies)[draw(Object.keys(lies).length)];
  const asked = { ...question(draw, own.texts), doc: draw(own.texts.length) }, kind = Object.keys(kinds)[draw(4)];
  asked.terms = termsOf(asked.query);
  if (!asked.terms) continue;
  const ask = assembler => kinds[kind](assembler, own, asked);
  const liar = lying(own, lie, 1 + draw(6)), cache = new MemoryCache();
  let outcome = await outcomeOf(ask, [liar], cache);
  count(lie, outcome);
  // After the liar an honest mirror answers, though the liar's places may be kept.
  const mirrored = outcome.startsWith('fault') ? await outcomeOf(ask, [liar, honest], cache) : 'honest';
  if (mirrored !== 'honest') outcome = `WITH A MIRROR: ${mirrored}`;
  if (!/^(honest|fault)/.test(outcome)) {
    wrong++;
    console.log(`${lie}, ${kind}, ${JSON.stringify(asked)}: ${outcome}`);
  }
}
for (const [lie, outcomes] of Object.entries(found))
  console.log(`${lie}: ${Object.entries(outcomes).map(([what, n]) => `${n} ${what}`).join(', ')}`);
console.log(wrong
    ? `${wrong} trials ended otherwise`
    : 'each ended in a named fault or in the honest bytes, and with an honest mirror in the honest bytes');
process.exitCode = wrong ? 1 : 0;
