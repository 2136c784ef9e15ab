// The folder of an archive (docs/formats.md), read by ranges. What is handed out is the archive's own by its root, or
// two strings have one SHA-256 digest. Only the places of pages, lists and texts are the host's word, and a wrong place
// gives bytes that do not fit.

import { DIGEST, Fields, compareBytes, hex, same } from './bytes.mjs';
import { hostFault } from './fault.mjs';
import { sizeOfList } from './list.mjs';
import { sha256 } from './sha256.mjs';
import { KnownTree, besides, leafDigest } from './tree.mjs';

const LAYOUT = 1, HEADER = 105, HEADER_TAG = 4, MOST_HEAD = 2 ** 16;
const LEAST_SHIFT = 6, MOST_SHIFT = 18, GROUP_SHIFT = 2, GROUP = 1 << GROUP_SHIFT;
const MOST_TEXT = 2 ** 20, MOST_TERM = 64, MOST_DOCUMENTS = 2 ** 16, MOST_LEAVES = 2 ** 24 + 2;

/**
 * @typedef {{ position: number, term: Uint8Array, bytes: Uint8Array }} Leaf
 * @typedef {Leaf & { documents: number, root: Uint8Array, list: number }} DictionaryLeaf `list` is where its list
 *   begins
 * @typedef {{ term: Uint8Array, start: number, end: number }} Page its first term, and where it is
 * @typedef {{ record: Uint8Array, from: number, to: number }} Member of a group
 */

/**
 * How many of these, in the order of their terms, have at most this one.
 * @template {{ term: Uint8Array }} Some
 * @param {Some[]} sorted
 * @param {Uint8Array} term
 */
function countUpTo(sorted, term) {
  let low = 0, high = sorted.length;
  while (low < high) {
    const middle = low + high >> 1;
    if (compareBytes(sorted[middle].term, term) <= 0) low = middle + 1;
    else high = middle;
  }
  return low;
}

/**
 * The leaf of a term, or the leaf below and the one above, as far as they are among these leaves.
 * @template {Leaf} Some
 * @param {Some[]} leaves
 * @param {Uint8Array} term
 */
export function neighbours(leaves, term) {
  const count = countUpTo(leaves, term), below = leaves[count - 1];
  return below && same(below.term, term) ? [below] : [below, leaves[count]];
}

/** One archive, by its root. Several of them, as shards, are read side by side by one of these each. */
export class Archive {
  #read; #folder; #pageShift;
  /** @type {Page[]} */
  #pages = [];
  /** @type {Map<string, Promise<any>>} */
  #kept = new Map();

  /** @type {(read: import('./question.mjs').Read, root: Uint8Array) => Promise<Archive>} */
  static open(read, root) {
    const folder = `${hex(root)}-${LAYOUT}`;
    return read(`${folder}/head`, 0, MOST_HEAD, bytes => new Archive(read, folder, new Fields('head', bytes), root));
  }

  /**
   * @param {import('./question.mjs').Read} read
   * @param {string} folder
   * @param {Fields} fields of the head
   * @param {Uint8Array} root
   */
  constructor(read, folder, fields, root) {
    this.#read = read;
    this.#folder = folder;
    const [magic, layout] = [String.fromCharCode(...fields.take(4)), fields.u8()];
    if (magic !== 'ATSH' || layout !== LAYOUT) throw hostFault('wrong', 'head', 'another layout');
    this.#pageShift = fields.u8();
    this.header = fields.take(HEADER).slice();
    if (!same(sha256(HEADER_TAG, this.header), root)) throw hostFault('wrong', 'head', 'another root');
    const header = new Fields('head', this.header);
    header.u8();
    this.documents = header.u32();
    this.leaves = header.u32();
    const [dictionary, documents, texts] = header.digests(3);
    const isWithin = this.documents >= 1 && this.documents <= MOST_DOCUMENTS && this.leaves >= 2
      && this.leaves <= MOST_LEAVES && this.#pageShift >= LEAST_SHIFT && this.#pageShift <= MOST_SHIFT;
    if (!isWithin) throw hostFault('wrong', 'head', 'a number out of range');
    this.dictionary = new KnownTree(this.leaves, dictionary, 'dictionary');
    this.documentsTree = new KnownTree(this.documents, documents, 'documents-tree');
    this.textsTree = new KnownTree(this.documents, texts, 'texts-tree');
    this.#readSparseIndex(fields);
  }

  /**
   * The bytes from `from` to `to` of a file, all of them, and what `bind` makes of them.
   * @template Made
   * @param {string} name
   * @param {number} from
   * @param {number} to
   * @param {(bytes: Uint8Array) => Made} bind
   * @returns {Promise<Made>}
   */
  async range(name, from, to, bind) {
    if (to === from) return bind(new Uint8Array(0));
    return this.#read(`${this.#folder}/${name}`, from, to, bytes => {
      if (bytes.length < to - from) throw hostFault('cut', name, `ends at ${from + bytes.length}, before ${to}`);
      return bind(bytes);
    });
  }

  /** @param {Fields} fields */
  #readSparseIndex(fields) {
    for (let start = 0, i = 0; i << this.#pageShift < this.leaves; i++) {
      const size = fields.u32(), term = fields.take(fields.u8());
      this.#pages.push({ term, start, end: start + size });
      start += size;
    }
    fields.end();
  }

  /**
   * What `make` promises for this key, made once for a question.
   * @template Made
   * @param {string} key
   * @param {() => Promise<Made>} make
   * @returns {Promise<Made>}
   */
  #once(key, make) {
    const kept = this.#kept.get(key) ?? make();
    this.#kept.set(key, kept);
    return kept;
  }

  // --- the dictionary ---

  /** @type {(number: number) => Promise<DictionaryLeaf[]>} the leaves of the page with this number */
  #page(number) {
    return this.#once(`page ${number}`, async () => {
      const { start, end } = this.#pages[number], position = number << this.#pageShift;
      const count = Math.min(1 << this.#pageShift, this.leaves - position);
      const most = 4 + count * (1 + MOST_TERM + 4 + DIGEST) + besides(this.leaves, position, count).length * DIGEST;
      if (end - start > most) throw hostFault('long', 'head', `page ${number}`);
      return this.range(
        'dictionary', start, end, bytes => this.#readPage(new Fields('dictionary', bytes), position, count));
    });
  }

  /** @type {(fields: Fields, position: number, count: number) => DictionaryLeaf[]} */
  #readPage(fields, position, count) {
    /** @type {DictionaryLeaf[]} */
    const leaves = [];
    for (let list = fields.u32(), i = 0; i < count; i++) {
      const leaf = dictionaryLeaf(fields, position + i, list);
      leaves.push(leaf);
      list += sizeOfList(leaf.documents);
    }
    this.dictionary.add(position, leaves.map(leaf => leafDigest(leaf.bytes)), fields);
    fields.end();
    return leaves;
  }

  /**
   * The leaves that show a term: its own, or its two neighbours.
   * @param {Uint8Array} term
   */
  async find(term) {
    const number = Math.max(countUpTo(this.#pages, term) - 1, 0), found = neighbours(await this.#page(number), term);
    if (found.length === 1) return found;
    const [below, above] = found, isLast = number + 1 === this.#pages.length;
    const next = above ?? (isLast ? undefined : (await this.#page(number + 1))[0]);
    // The first terms of pages are the host's word, so the term may be on another page.
    if (!below || !next || compareBytes(next.term, term) <= 0) throw hostFault('wrong', 'head', 'terms out of order');
    return [below, next];
  }

  // --- documents ---

  /**
   * Of a group of documents: for each its record, of `size` bytes, and where it begins and ends in its file.
   * @param {KnownTree} tree
   * @param {number} number
   * @param {number} size
   * @param {(record: Uint8Array) => Uint8Array} digestOf
   * @returns {Promise<Member[]>}
   */
  #group(tree, number, size, digestOf) {
    return this.#once(`${tree.file} ${number}`, () => {
      const position = number << GROUP_SHIFT, count = Math.min(GROUP, this.documents - position);
      const depth = 32 - Math.clz32(this.documents - 1 >>> GROUP_SHIFT);
      const room = 4 * (GROUP + 1) + size * GROUP + DIGEST * depth;
      return this.range(tree.file, number * room, (number + 1) * room, bytes => {
        const fields = new Fields(tree.file, bytes);
        const begins = Array.from({ length: GROUP + 1 }, () => fields.u32());
        const records = Array.from({ length: GROUP }, () => fields.take(size)).slice(0, count);
        tree.add(position, records.map(digestOf), fields);
        return records.map((record, i) => ({ record, from: begins[i], to: begins[i + 1] }));
      });
    });
  }

  /** @type {(doc: number) => Promise<Uint8Array>} the bytes of a document's text */
  async text(doc) {
    const group = await this.#group(this.textsTree, doc >> GROUP_SHIFT, DIGEST, digest => digest);
    const { record, from, to } = group[doc % GROUP];
    if (to < from || to - from > MOST_TEXT) throw hostFault('long', 'texts-tree', `text ${doc}`);
    return this.range('texts', from, to, text => {
      if (!same(leafDigest(text), record)) throw hostFault('wrong', 'texts', `text ${doc}`);
      return text;
    });
  }

  /**
   * The leaf of a document, the leaves of its terms, and their tree.
   * @param {number} doc
   */
  async termsOf(doc) {
    const group = await this.#group(this.documentsTree, doc >> GROUP_SHIFT, 4 + DIGEST, leafDigest);
    const { record, from, to } = group[doc % GROUP];
    const count = new Fields('documents-tree', record).u32(), tree = new KnownTree(count, record.subarray(4), 'terms');
    if (to < from || to - from > count * (1 + MOST_TERM + 2)) throw hostFault('long', 'terms', `those of ${doc}`);
    return this.range('terms', from, to, bytes => {
      const fields = new Fields('terms', bytes);
      const leaves = Array.from({ length: count }, (_, position) => termsLeaf(fields, position));
      tree.add(0, leaves.map(leaf => leafDigest(leaf.bytes)), fields);
      fields.end();
      return { record, leaves, tree };
    });
  }
}

/** @type {(fields: Fields, position: number, list: number) => DictionaryLeaf} */
function dictionaryLeaf(fields, position, list) {
  const from = fields.at, term = fields.take(fields.u8()), documents = fields.u32(), root = fields.take(DIGEST);
  return { position, term, documents, root, list, bytes: fields.bytes.subarray(from, fields.at) };
}

/** @type {(fields: Fields, position: number) => Leaf} */
function termsLeaf(fields, position) {
  const from = fields.at, term = fields.take(fields.u8());
  fields.take(2);
  return { position, term, bytes: fields.bytes.subarray(from, fields.at) };
}
