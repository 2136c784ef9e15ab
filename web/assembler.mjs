// Answers questions from the folders of an archive, or of those of a catalog, on one host or several, as the program
// would: the bytes of proofs, or a Fault.

import { Archive } from './archive.mjs';
import { bytesOfHex } from './bytes.mjs';
import { MemoryCache } from './cache.mjs';
import { Fault, throwOthers } from './fault.mjs';
import { both, ranked, text } from './proofs.mjs';
import { newest, rootsOf, way } from './publications.mjs';
import { LIMITS, Question, readerOf } from './question.mjs';
import { ofShards } from './shards.mjs';

/**
 * @typedef {import('./question.mjs').Host} Host
 * @typedef {import('./question.mjs').How} How
 * @typedef {import('./check.mjs').Term} Term
 */

export class Assembler {
  #hosts; #cache; #limits;

  /**
   * @param {Host[]} hosts have the same folders, and are tried in this order
   * @param {{ cache?: import('./cache.mjs').Cache, limits?: Partial<import('./question.mjs').Limits> }} more
   */
  constructor(hosts, { cache = new MemoryCache(), limits = {} } = {}) {
    this.#hosts = [...hosts];
    this.#cache = cache;
    this.#limits = { ...LIMITS, ...limits };
  }

  /**
   * The roots of the archives under a root: those of a catalog, or the root itself.
   * @param {{ root: string }} asked
   * @param {How} [how]
   */
  roots({ root }, how) {
    return new Question(this.#limits, how).ended(async question => {
      const own = () => this.#fromArchives([root], question, async () => [root]);
      const listed = () => this.#fromHosts(host => rootsOf(host, root, question));
      return ifMissing(own, () => ifMissing(listed, async () => [root]));
    });
  }

  /**
   * From each of these archives the TNRA proof of the best r documents of all. `terms` are those of the query, in byte
   * order.
   * @param {{ roots: string[], terms: Term[], r: number }} asked
   * @param {How} [how]
   */
  ranked({ roots, terms, r }, how) {
    return this.#assembled(roots, how, archives => ranked(archives, terms, r));
  }

  /**
   * From each of these archives the proof of all its documents with every term.
   * @param {{ roots: string[], terms: Term[] }} asked
   * @param {How} [how]
   */
  both({ roots, terms }, how) {
    return this.#assembled(roots, how, archives => both(archives, terms, this.#limits.documents));
  }

  /**
   * The file of a text.
   * @param {{ root: string, doc: number }} asked
   * @param {How} [how]
   */
  text({ root, doc }, how) { return this.#assembled([root], how, ([own]) => text(own, doc)); }

  /**
   * The newest root that the owner publishes beside the folders for the archive of this root, or undefined.
   * @param {{ root: string }} asked
   * @param {How} [how]
   */
  newest({ root }, how) { return this.#published(how, (host, question) => newest(host, root, question)); }

  /**
   * The files of growths from a root to a later one, in order.
   * @param {{ from: string, to: string }} asked
   * @param {How} [how]
   */
  growth({ from, to }, how) { return this.#published(how, (host, question) => way(host, from, to, question)); }

  /**
   * @template Made
   * @param {How | undefined} how
   * @param {(host: Host, question: Question) => Promise<Made>} read
   */
  #published(how, read) {
    return new Question(this.#limits, how).ended(question => this.#fromHosts(host => read(host, question)));
  }

  /**
   * @template Made
   * @param {string[]} roots
   * @param {How | undefined} how
   * @param {(archives: Archive[]) => Promise<Made>} make
   */
  #assembled(roots, how, make) {
    return new Question(this.#limits, how).ended(question => this.#fromArchives(roots, question, make));
  }

  /**
   * @template Made
   * @param {string[]} roots
   * @param {Question} question
   * @param {(archives: Archive[]) => Promise<Made>} make
   */
  #fromArchives(roots, question, make) {
    const made = async (host, isAgain) => {
      const read = readerOf(host, this.#cache, question, isAgain);
      return make(await ofShards(roots, root => Archive.open(read, bytesOfHex(root))));
    };
    return this.#fromHosts(async host => {
      try {
        return await made(host, false);
      } catch (fault) {
        // Bytes do not fit: a cache may have kept what once did not, or another host gave a wrong place in a head.
        throwOthers(fault, 'wrong', 'cut', 'long', 'missing');
      }
      await Promise.all(roots.map(root => this.#cache.forget(root)));
      host.forget();
      return made(host, true);
    });
  }

  /**
   * What the first host answers that can. It stays the first one.
   * @template Made
   * @param {(host: Host) => Promise<Made>} work
   * @returns {Promise<Made>}
   */
  async #fromHosts(work) {
    /** @type {unknown} */
    let last = new Fault('missing', 'host: none is named');
    for (const host of [...this.#hosts]) {
      try {
        const found = await work(host);
        this.#hosts = [host, ...this.#hosts.filter(other => other !== host)];
        return found;
      } catch (fault) {
        if (!(fault instanceof Fault) || fault.line.startsWith('input')) throw fault;
        last = fault;
      }
    }
    throw last;
  }
}

/**
 * @template Made
 * @param {() => Promise<Made>} first
 * @param {() => Promise<Made>} otherwise what is done if that is not there
 */
const ifMissing = (first, otherwise) => first().catch(fault => {
  throwOthers(fault, 'missing');
  return otherwise();
});
