// Reads the publications of an owner (docs/formats.md, the file of a publication) beside the folders of archives: which
// archives a catalog has, which root is the newest, and which growths lead there. Whoever gets a growth checks it under
// both roots.

import { bytesOfHex, hex } from './bytes.mjs';
import { Fault, hostFault } from './fault.mjs';
import { sha256 } from './sha256.mjs';
import { leafDigest, rootOf } from './tree.mjs';

const MOST_PUBLICATION = 2 ** 20, MOST_GROWTH = 4096, MOST_STEPS = 64;
const CATALOG_TAG = 2, LATEST = 'publication.txt';
const SHARD = new RegExp(['^shard: [0-9]+', 'root: ([0-9a-f]{64})', 'format: [12]', 'documents: [0-9]+',
  'before: (none|[0-9a-f]{64})', 'growth: (none|[a-z0-9][a-z0-9.-]{0,63})$'].join('\n'), 'gm');

/**
 * @typedef {import('./question.mjs').Host} Host
 * @typedef {import('./question.mjs').Question} Question
 * @typedef {{ root: string, before: string, growth: string }} Shard
 * @typedef {{ number: number, name: string, titles: boolean, catalog: string, shards: Shard[] }} Publication
 */

/**
 * A publication: its number, the archive's name if it has one, whether first lines are titles, the catalog's root, and
 * of each shard its root, the root before, and the name of the growth between them.
 * @param {Host} host
 * @param {string} name
 * @param {Question} question
 * @returns {Promise<Publication | undefined>}
 */
async function read(host, name, question) {
  const bytes = await host.file(name, MOST_PUBLICATION, question);
  if (!bytes) return undefined;
  const said = new TextDecoder().decode(bytes), number = Number(/^publication: ([0-9]{1,9})\n/.exec(said)?.[1]);
  const shards = [...said.matchAll(SHARD)].map(([, root, before, growth]) => ({ root, before, growth }));
  if (!number || shards.length === 0) throw hostFault('wrong', name, 'no publication');
  const own = /^name: (.{1,100})$/mu.exec(said)?.[1] ?? '', catalog = /^catalog: (.*)$/m.exec(said)?.[1] ?? '';
  return { number, name: own, titles: /^titles: first-line$/m.test(said), catalog, shards };
}

/**
 * The newest publication and those before it, as long as there are any.
 * @type {(host: Host, question: Question) => AsyncGenerator<Publication, void, unknown>}
 */
async function* backward(host, question) {
  let one = await read(host, LATEST, question);
  for (let steps = 0; one && steps < MOST_STEPS; steps++) {
    yield one;
    one = one.number > 1 ? await read(host, `publication-${one.number - 1}.txt`, question) : undefined;
  }
}

/** @type {(roots: string[]) => string} the root of the catalog of archives with these roots */
function catalogOf(roots) {
  const front = Uint8Array.of(0x41, 0x54, 0x53, 0x43, 1, 0, 0, 0, 0); // ATSC
  new DataView(front.buffer).setUint32(5, roots.length);
  return hex(sha256(CATALOG_TAG, front, rootOf(roots.map(root => leafDigest(bytesOfHex(root))))));
}

/**
 * The roots of the archives of a catalog.
 * @param {Host} host
 * @param {string} root of the catalog
 * @param {Question} question
 */
export async function rootsOf(host, root, question) {
  for await (const { catalog, shards } of backward(host, question)) {
    const roots = shards.map(shard => shard.root);
    if (catalog === root && catalogOf(roots) !== root) throw hostFault('wrong', LATEST, 'roots of another catalog');
    if (catalog === root) return roots;
  }
  throw new Fault('missing', `host: no catalog ${root}`);
}

/**
 * The newest root of what has or had this root, be it a catalog or one of its archives; its name, and whether its first
 * lines are titles; or undefined.
 * @param {Host} host
 * @param {string} root
 * @param {Question} question
 */
export async function newest(host, root, question) {
  /** @type {Publication | undefined} */
  let latest;
  for await (const one of backward(host, question)) {
    latest ??= one;
    const { catalog, shards } = one, place = shards.findIndex(shard => shard.root === root);
    const { name, titles } = latest;
    // An archive may become the first of several.
    const isWhole = catalog === root || place === 0 && latest.shards.length > 1;
    const found = isWhole ? latest.catalog : latest.shards[place]?.root;
    if (isWhole || place >= 0) return found && { root: found, name, titles };
  }
  return undefined;
}

/**
 * The growths from a root to a later one of its shard, in order.
 * @param {Host} host
 * @param {string} from
 * @param {string} to
 * @param {Question} question
 */
export async function way(host, from, to, question) {
  /** @type {{ from: string, to: string, name: string }[]} */
  const steps = [];
  let root = to, place = -1;
  for await (const { shards } of backward(host, question)) {
    if (place < 0) place = shards.findIndex(shard => shard.root === to);
    const shard = shards[place];
    if (root === from) break;
    if (shard?.root === root && shard.before !== root) {
      steps.unshift({ from: shard.before, to: root, name: shard.growth });
      root = shard.before;
    }
  }
  const isWhole = root === from && steps.every(step => step.name !== 'none');
  if (!isWhole) throw new Fault('missing', `host: no growth from ${from} to ${to}`);
  return Promise.all(steps.map(async step => {
    const file = await host.file(step.name, MOST_GROWTH, question);
    if (!file) throw hostFault('missing', step.name, 'not there');
    return { from: step.from, to: step.to, file };
  }));
}
