// Writes what `ats prove INDEX2 tnra R QUERY`, `ats give INDEX2 DOC` and `ats prove-both INDEX2 QUERY` write, byte for
// byte, from the folder of an archive; and of several archives the proofs of an answer of all. Nothing of it is proved,
// and nobody has to trust it: the proved check refuses every wrong answer.

import { neighbours } from './archive.mjs';
import { Fault } from './fault.mjs';
import { InvertedList } from './list.mjs';
import { ofShards } from './shards.mjs';
import { idf, walk } from './walk.mjs';

const FORMAT = 2, TRA = 1, TNRA = 2, MOST_PROOF = 2 ** 26;

/**
 * @typedef {import('./archive.mjs').Archive} Archive
 * @typedef {import('./archive.mjs').Leaf} Leaf
 * @typedef {import('./archive.mjs').DictionaryLeaf} DictionaryLeaf
 * @typedef {import('./check.mjs').Term} Term
 */

class Writer {
  #bytes = new Uint8Array(4096);
  #view = new DataView(this.#bytes.buffer);
  #length = 0;

  /** Room for a field, and where it begins. */
  #room(size) {
    const from = this.#length;
    this.#length += size;
    if (this.#length > MOST_PROOF) throw new Fault('long', `input: proof of more than ${MOST_PROOF} bytes`);
    if (this.#length > this.#bytes.length) {
      const larger = new Uint8Array(2 * this.#length);
      larger.set(this.#bytes);
      this.#bytes = larger;
      this.#view = new DataView(larger.buffer);
    }
    return from;
  }

  /** @param {number} value */
  u8(value) { const at = this.#room(1); this.#view.setUint8(at, value); }
  /** @param {number} value */
  u16(value) { const at = this.#room(2); this.#view.setUint16(at, value); }
  /** @param {number} value */
  u32(value) { const at = this.#room(4); this.#view.setUint32(at, value); }
  /** @param {Uint8Array} bytes */
  put(bytes) { const at = this.#room(bytes.length); this.#bytes.set(bytes, at); }

  /**
   * Digests with their number before them.
   * @param {'u8' | 'u16' | 'u32'} width of their number
   * @param {Uint8Array[]} digests
   */
  digests(width, digests) {
    this[width](digests.length);
    digests.forEach(digest => this.put(digest));
  }

  /** @type {(magic: string, fields: number[], archive: Archive) => void} how every file begins */
  begin(magic, fields, { header }) {
    this.put(new TextEncoder().encode(magic));
    fields.forEach(field => this.u8(field));
    this.put(header);
  }

  done() { return this.#bytes.slice(0, this.#length); }
}

/**
 * The leaves that show all terms, each once, in order, with what is beside them, and for each term where it is.
 * @param {Writer} writer
 * @param {Leaf[][]} found the one or two leaves of each term
 * @param {import('./tree.mjs').KnownTree} tree
 */
function putSection(writer, found, tree) {
  const distinct = new Map(found.flat().map(leaf => [leaf.position, leaf]));
  const positions = [...distinct.keys()].sort((a, b) => a - b);
  writer.u16(positions.length);
  for (const position of positions) {
    writer.u32(position);
    writer.put(/** @type {Leaf} */ (distinct.get(position)).bytes);
  }
  writer.digests('u16', tree.beside(positions));
  const places = new Map(positions.map((position, i) => [position, i]));
  for (const own of found) {
    writer.u8(isPresent(own) ? 1 : 0);
    writer.u16(places.get(own[0].position) ?? 0);
  }
}

/**
 * All fields up to the lists, which every proof of these terms has.
 * @param {Archive} archive
 * @param {number} algorithm
 * @param {Leaf[][]} found
 * @param {number[]} met
 * @param {InvertedList[]} lists
 * @param {number[]} cut
 */
function startProof(archive, algorithm, found, met, lists, cut) {
  const writer = new Writer(), places = new Uint32Array(archive.documents);
  writer.begin('ATSP', [FORMAT, algorithm], archive);
  writer.u16(found.length);
  putSection(writer, found, archive.dictionary);
  writer.u32(met.length);
  met.forEach((doc, place) => {
    writer.u32(doc);
    places[doc] = place;
  });
  lists.forEach((list, i) => putPrefix(writer, list, cut[i], places));
  return { writer, places };
}

/**
 * @param {Writer} writer
 * @param {InvertedList} list
 * @param {number} shown
 * @param {Uint32Array} places of the met documents among them
 */
function putPrefix(writer, list, shown, places) {
  writer.u32(shown);
  for (let i = 0; i < shown; i++) {
    writer.u32(places[list.docs[i]]);
    writer.u16(list.impacts[i]);
  }
  writer.digests('u16', list.beside(shown));
}

/**
 * @param {Archive} archive
 * @param {Term[]} terms
 */
const find = (archive, terms) => Promise.all(terms.map(({ term }) => archive.find(term)));
/** @param {Leaf[]} own */
const isPresent = own => own.length === 1;

/**
 * The honest TNRA proofs of the best r documents of all these archives. `terms` are distinct, in byte order.
 * @type {(archives: Archive[], terms: Term[], r: number) => Promise<Uint8Array[]>}
 */
export async function ranked(archives, terms, r) {
  const found = await ofShards(archives, archive => find(archive, terms));
  const shards = archives.map((own, i) => ({ lanes: lanesOf(own, terms, found[i]), documents: own.documents }));
  const settled = await walk(shards, r);
  return archives.map((archive, i) => {
    const { cut, rows, met } = settled[i], lists = shards[i].lanes.map(({ list }) => list);
    const { writer, places } = startProof(archive, TNRA, found[i], met, lists, cut);
    writer.u16(rows.length);
    rows.forEach(doc => writer.u32(places[doc]));
    return writer.done();
  });
}

/** @type {(archive: Archive, terms: Term[], found: DictionaryLeaf[][]) => import('./walk.mjs').Lane[]} */
const lanesOf = (archive, terms, found) => terms.flatMap(({ weight }, i) => {
  const [leaf] = found[i];
  if (!isPresent(found[i])) return [];
  return [{ list: new InvertedList(archive, leaf), coefficient: weight * idf(archive.documents, leaf.documents) }];
});

/** @type {(archive: Archive, doc: number) => Promise<Uint8Array>} the file of a document's text */
export async function text(archive, doc) {
  if (!(doc < archive.documents)) throw new Fault('missing', `input: document ${doc}`);
  const bytes = await archive.text(doc), writer = new Writer();
  writer.begin('ATSF', [FORMAT], archive);
  writer.u32(bytes.length);
  writer.put(bytes);
  writer.digests('u8', archive.textsTree.beside([doc]));
  return writer.done();
}

/**
 * Of the lists of all terms the shortest one is shown whole, of the others an entry. If a term is absent, one entry of
 * each.
 * @type {(terms: Term[], lists: InvertedList[]) => number[]}
 */
function cutOfAll(terms, lists) {
  if (lists.length < terms.length) return lists.map(() => 1);
  const shortest = lists.reduce((least, list) => list.length < least.length ? list : least);
  return lists.map(list => list === shortest ? list.length : 1);
}

/**
 * From each archive the honest proof of all its documents that have every term, if the terms of at most `most`
 * documents have to be read for them.
 * @type {(archives: Archive[], terms: Term[], most: number) => Promise<Uint8Array[]>}
 */
export async function both(archives, terms, most) {
  const parts = await ofShards(archives, async archive => {
    const found = await find(archive, terms), present = found.filter(isPresent).map(([leaf]) => leaf);
    const lists = present.map(leaf => new InvertedList(archive, leaf)), cut = cutOfAll(terms, lists);
    return { archive, found, present, lists, cut };
  });
  const shown = parts.flatMap(({ cut }) => cut).reduce((sum, count) => sum + count, 0);
  if (shown > most) throw new Fault('input', `input: ${shown} documents to look into, of at most ${most}`);
  return ofShards(parts, bothOf);
}

/** The proof of one archive. */
async function bothOf({ archive, found, present, lists, cut }) {
  await Promise.all(lists.map((list, i) => list.upTo(cut[i])));
  const shownDocs = lists.flatMap((list, i) => [...list.docs.subarray(0, cut[i])]);
  const met = [...new Set(shownDocs)].sort((a, b) => a - b);
  const { writer } = startProof(archive, TRA, found, met, lists, cut);
  const documents = await Promise.all(met.map(doc => archive.termsOf(doc)));
  documents.forEach(({ record }) => writer.put(record));
  writer.digests('u32', archive.documentsTree.beside(met));
  for (const { leaves, tree } of documents)
    putSection(writer, present.map(({ term }) => neighbours(leaves, term)), tree);
  writer.u16(0);
  return writer.done();
}
