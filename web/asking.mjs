// Questions: what a source answers to them, what the check says of that, and what texts show. Not proved.

import { bytesOfHex, hex } from './bytes.mjs';
import { each } from './calls.mjs';
import { Fault, throwOthers } from './fault.mjs';
import { isCatalog, nameOf, placeOf } from './places.mjs';
import { number } from './sentences.mjs';
import { catalogFile, proofsIn, shownBy } from './shown.mjs';

/**
 * @typedef {import('./question.mjs').How} How
 * @typedef {import('./assembler.mjs').Assembler} Assembler
 *
 * @typedef {object} Question
 * @property {string} root
 * @property {'best' | 'all'} way
 * @property {string} typed what the person typed
 * @property {string} query what is asked
 * @property {number} r how many are wanted of the best; 0 for all
 * @property {string[]} phrases what stands in quotes
 * @property {string[]} passed signs that mean nothing
 *
 * @typedef {object} Words
 * @property {import('./check.mjs').Verdict} got whether the query breaks a limit: then it has no words
 * @property {import('./check.mjs').Term[]} terms
 * @property {string[]} all the terms, in the order of their bytes
 * @property {string[][]} together the phrases that have several words
 * @property {string[][]} marked what is marked in texts: these phrases, and the words outside of them
 *
 * @typedef {object} Found by the page, in texts
 * @property {string[]} docs that have the phrases
 * @property {number} read how many texts were looked into
 * @property {number} failed how many of them did not come, or were refused
 * @property {string} stopped why no more were looked into, or empty
 *
 * A question with the roots of its archives, and what came for it: one proof of the best, or one of all documents from
 * each archive; and the files of texts, by the names of places.mjs.
 * @typedef {Question & { shards: string[], proofs: Uint8Array[], texts: Map<string, Uint8Array>, titles: boolean,
 *   from?: Saved }} Proved
 * @typedef {Proved & { words: Words, got: any, ms: number, all: number, having: number[], rows: { lower: bigint, upper:
 *   bigint }[], docs: string[], found?: Found }} Answer
 * @typedef {Proved & { name: string, date: string }} Saved the file that was opened
 */

const MOST_TEXTS = 10000, MOST_BYTES = 2 ** 26, AT_ONCE = 6;
const OF_SHARD = 64; // added to the reason of a proof that is one of a catalog's
const NOTHING = new Uint8Array(0), OTHER_ROOT = { status: 1, reason: 16, line: '', ms: 0 };

/** Asks the folders of archives on hosts, which nobody has to trust, and has the checks look at what comes. */
export class Asking {
  #checks; #hosts;
  /** @type {Map<string, string[]>} */
  #shards = new Map();

  /**
   * @param {import('./calls.mjs').Calls} checks
   * @param {import('./calls.mjs').Calls} hosts whose answers an Assembler makes
   */
  constructor(checks, hosts) {
    this.#checks = checks;
    this.#hosts = hosts;
  }

  /**
   * @type {<Call extends keyof Assembler>(call: Call, words: Parameters<Assembler[Call]>[0], how?: How) =>
   *   Promise<Awaited<ReturnType<Assembler[Call]>>>}
   */
  #source = (call, words, how = {}) => this.#hosts.call(call, words, how);

  /**
   * The roots of the archives under a root, which the check has compared with it.
   * @param {string} root
   * @param {AbortSignal} [signal]
   */
  async shards(root, signal) {
    const found = this.#shards.get(root) ?? await this.#source('roots', { root }, { signal });
    if (!await this.#isOf(root, found, signal)) throw new Fault('wrong', 'host: archives of another catalog');
    this.#shards.set(root, found);
    return found;
  }

  /**
   * The newest root that is published, if there is any.
   * @param {string} root
   */
  newest(root) { return this.#source('newest', { root }).catch(() => undefined); }

  /** Whether these are the roots of the archives under a root. */
  async #isOf(root, shards, signal) {
    if (!isCatalog({ root, shards })) return true;
    const got = await this.#checks.call('catalogRoot', [shards.map(bytesOfHex)], { signal });
    return got.status === 0 && hex(got.root) === root;
  }

  /**
   * What the check says of the proofs for a question: rows or documents by the names of places.mjs, and if it refuses
   * the proof of one archive of several, which one.
   * @param {Question & { shards: string[] }} question
   * @param {Uint8Array[]} proofs
   * @param {AbortSignal} [signal]
   */
  async checked(question, proofs, signal) {
    const { way, root, query, r } = question, isMany = isCatalog(question), call = isMany ? 'catalog' : 'check';
    if (way === 'all') return this.#checkedAll(question, proofs, signal);
    const got = await this.#checks.call(call, [proofs[0], bytesOfHex(root), query, r], { signal });
    if (isMany && got.reason >= OF_SHARD) return { ...got, reason: got.reason - OF_SHARD, shard: got.count };
    return { ...got, docs: got.rows?.map(({ shard, doc }) => nameOf(shard, doc)) };
  }

  /** The same of all documents with every word: of each archive by itself. */
  async #checkedAll(question, proofs, signal) {
    const { shards, query } = question, isMany = isCatalog(question), docs = [];
    let ms = 0;
    for (const [i, shard] of shards.entries()) {
      const got = await this.#checks.call('both', [proofs[i] ?? NOTHING, bytesOfHex(shard), query], { signal });
      ms += got.ms;
      if (got.status !== 0) return { ...got, shard: isMany ? i : undefined };
      docs.push(...got.docs.map(doc => nameOf(isMany ? i : undefined, doc)));
    }
    return { status: 0, docs, rows: [], ms };
  }

  /**
   * What the check says of the growth of an archive: both numbers of documents, or the verdict that refuses it, or that
   * none leads there.
   * @param {string} root
   * @param {string} offered
   * @param {AbortSignal} [signal]
   * @returns {Promise<import('./roots.mjs').Relation>}
   */
  async growth(root, offered, signal) {
    let at = root, before, after;
    try {
      for (const { from, to, file } of await this.#source('growth', { from: root, to: offered }, { signal })) {
        if (from !== at) return { kind: 'other' };
        const got = await this.#checks.call('growth', [file, bytesOfHex(from), bytesOfHex(to)], { signal });
        if (got.status !== 0) return { kind: 'refused', got };
        before ??= got.grown.old;
        after = got.grown.new;
        at = to;
      }
    } catch (fault) {
      throwOthers(fault, 'missing');
    }
    return at === offered && before !== undefined ? { kind: 'grown', before, after } : { kind: 'other' };
  }

  /** @type {(question: Question, signal: AbortSignal) => Promise<Words>} */
  async words({ query, phrases }, signal) {
    const got = await this.#checks.call('query', [query], { signal }), { terms = [] } = got;
    const all = terms.map(({ term }) => new TextDecoder().decode(term));
    const sequences = await Promise.all(phrases.map(phrase => this.#checks.call('sequence', [phrase], { signal })));
    const together = sequences.filter(words => words.length > 1), inside = new Set(together.flat());
    const marked = [...together, ...all.filter(word => !inside.has(word)).map(word => [word])];
    return { got, terms, all, together, marked };
  }

  /**
   * An answer of the source, with the check's verdict, whatever it is.
   * @type {(question: Question, words: Words, how: How) => Promise<Answer>}
   */
  async answer(question, words, how) {
    const { root, r, way } = question, { terms } = words, start = performance.now();
    const shards = await this.shards(root, how.signal), isBest = way === 'best';
    const found = await this.#source(isBest ? 'ranked' : 'both', { roots: shards, terms, r }, how);
    const proofs = isBest && isCatalog({ root, shards }) ? [catalogFile(shards, found)] : found;
    const ms = performance.now() - start;
    return this.judged({ ...question, words, shards, proofs, texts: new Map(), titles: false, ms }, how.signal);
  }

  /**
   * @param {Proved & { words: Words, ms: number }} asked
   * @param {AbortSignal} [signal]
   * @returns {Promise<Answer>}
   */
  async judged(asked, signal) {
    const { root, shards, way, proofs } = asked, none = { rows: [], docs: [], all: 0, having: [] };
    const got = await this.#isOf(root, shards, signal) ? await this.checked(asked, proofs, signal) : OTHER_ROOT;
    if (got.status !== 0) return { ...asked, ...none, got };
    const shown = (way === 'best' && isCatalog(asked) ? proofsIn(proofs[0]) : proofs).map(shownBy);
    const sum = counts => counts.reduce((all, count) => all + count, 0);
    const having = asked.words.all.map((_, i) => sum(shown.map(it => it.having[i])));
    return { ...asked, got, rows: got.rows, docs: got.docs, all: sum(shown.map(it => it.documents)), having };
  }

  /**
   * Reads a text that the check accepts: `call` is one of `excerpt`, `whole` and `holds` of reading.mjs. Its file is
   * kept.
   * @param {Answer} answer
   * @param {string} call
   * @param {string} name of the document
   * @param {AbortSignal} signal
   * @returns {Promise<{ got: any, read: any, size: number }>}
   */
  async read({ shards, texts, from, words, titles }, call, name, signal) {
    const { shard, doc } = placeOf(name), sequences = call === 'holds' ? words.together : words.marked;
    const root = shards[shard], kept = texts.get(name);
    if (from && !kept) throw new Fault('missing', 'no text in the saved file');
    const file = kept ?? await this.#source('text', { root, doc }, { signal });
    const it = await this.#checks.call(call, [file, bytesOfHex(root), doc, sequences, titles], { signal });
    if (it.got.status === 0 && call !== 'holds') texts.set(name, file);
    return { ...it, size: file.length };
  }

  /**
   * Which of an answer's documents have the phrases, by their texts.
   * @type {(answer: Answer, how: { signal: AbortSignal, progress: (it: object) => void }) => Promise<Found>}
   */
  async find(answer, { signal, progress }) {
    const { docs } = answer, found = { docs: /** @type {string[]} */ ([]), read: 0, failed: 0 };
    let bytes = 0;
    await each(docs.slice(0, MOST_TEXTS), AT_ONCE, async doc => {
      if (bytes >= MOST_BYTES) return;
      bytes += await this.#looked(answer, doc, found, signal);
      progress({ of: docs.length, done: found.read, bytes });
    });
    const have = new Set(found.docs), limit = bytes >= MOST_BYTES ? '64 MiB of texts' : `${number(MOST_TEXTS)} texts`;
    const stopped = found.read < docs.length ? `This page looks into ${limit} at most.` : '';
    return { ...found, stopped, docs: docs.filter(doc => have.has(doc)) };
  }

  /** Looks into one text, and returns how many bytes came for it. */
  async #looked(answer, doc, found, signal) {
    try {
      const { got, read, size } = await this.read(answer, 'holds', doc, signal);
      if (read) found.docs.push(doc);
      if (got.status !== 0) found.failed++;
      return size;
    } catch (fault) {
      if (!(fault instanceof Fault)) throw fault;
      found.failed++;
      return 0;
    } finally {
      found.read++;
    }
  }
}
