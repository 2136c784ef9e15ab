// An inverted list in blocks, of which the first ones are read. Each block is bound by the digest in the one before it,
// and the first by that in the dictionary.

import { DIGEST, same } from './bytes.mjs';
import { hostFault } from './fault.mjs';
import { ENTRIES, rootOfEntries, sha256 } from './sha256.mjs';
import { KnownTree, leafDigest } from './tree.mjs';

const ENTRY = 6; // bytes
const ROOM = ENTRIES * ENTRY + DIGEST; // of a block that another one follows
const CHAIN_TAG = 3, NO_DIGEST = new Uint8Array(DIGEST);

/** @type {(entries: number) => number} bytes of a list with so many entries */
export const sizeOfList = entries => ENTRY * entries + DIGEST * Math.max(Math.ceil(entries / ENTRIES) - 1, 0);

export class InvertedList {
  #archive; #at;
  /** The digest of each known block, and of the next one. */
  #chain;

  /**
   * @param {import('./archive.mjs').Archive} archive
   * @param {import('./archive.mjs').DictionaryLeaf} leaf
   */
  constructor(archive, { documents, root, list }) {
    if (documents < 1 || documents > archive.documents)
      throw hostFault('wrong', 'dictionary', 'a sentinel among the terms');
    this.#archive = archive;
    this.#at = list;
    this.#chain = [root];
    this.length = documents;
    this.known = 0;
    this.docs = new Uint32Array(documents);
    this.impacts = new Uint16Array(documents);
  }

  /** @type {(entries: number) => Promise<void>} reads on, until so many entries are here, or a few more of a block */
  async upTo(entries) {
    if (Math.min(entries, this.length) <= this.known) return;
    const from = this.known / ENTRIES * ROOM, most = sizeOfList(this.length);
    const to = Math.min(Math.ceil(entries / ENTRIES) * ROOM, most);
    await this.#archive.range('lists', this.#at + from, this.#at + to, bytes => {
      for (let at = 0; at < bytes.length;) at = this.#takeBlock(bytes, at);
    });
  }

  /**
   * Takes the block at this place of the bytes, and returns where the next one is.
   * @type {(bytes: Uint8Array, at: number) => number}
   */
  #takeBlock(bytes, at) {
    const count = Math.min(ENTRIES, this.length - this.known), end = at + count * ENTRY;
    const isLast = this.known + count === this.length;
    const next = isLast ? NO_DIGEST : bytes.slice(end, end + DIGEST);
    if (!same(sha256(CHAIN_TAG, rootOfEntries(bytes, at, count), next), this.#chain[this.#chain.length - 1])) {
      throw hostFault('wrong', 'lists', `block ${this.known / ENTRIES}`);
    }
    for (let i = this.known; at < end; i++, at += ENTRY) {
      this.docs[i] = bytes[at] << 24 | bytes[at + 1] << 16 | bytes[at + 2] << 8 | bytes[at + 3];
      this.impacts[i] = bytes[at + 4] << 8 | bytes[at + 5];
      if (this.docs[i] >= this.#archive.documents) throw hostFault('wrong', 'lists', 'a document out of range');
    }
    this.#chain.push(next);
    this.known += count;
    return isLast ? end : end + DIGEST;
  }

  /** @param {number} i */
  #entry(i) {
    const doc = this.docs[i], impact = this.impacts[i];
    return Uint8Array.of(doc >> 24, doc >> 16, doc >> 8, doc, impact >> 8, impact);
  }

  /**
   * The digests that the first `shown` entries need: those of the last shown block, and then that of the next block if
   * there is one.
   * @param {number} shown
   */
  beside(shown) {
    const block = Math.ceil(shown / ENTRIES) - 1, start = block * ENTRIES;
    const count = Math.min(ENTRIES, this.length - start);
    const tree = new KnownTree(count);
    tree.know(0, Array.from({ length: count }, (_, i) => leafDigest(this.#entry(start + i))));
    const own = tree.beside(Array.from({ length: shown - start }, (_, i) => i));
    return start + ENTRIES < this.length ? [...own, this.#chain[block + 1]] : own;
  }
}
