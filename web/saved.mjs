// A saved proof: a ZIP file with the question, the bytes of the proof, those of the texts, and how to check them with
// the program. It is evidence by its proof alone, so the page checks all of it again when it opens one. Not proved.

import { joined } from './bytes.mjs';
import { documentOf, isCatalog, isName, placeOf } from './places.mjs';
import { badSign, readQuery } from './query.mjs';
import { capital } from './sentences.mjs';

const ABOUT = 'about.json', PROOF = 'answer.proof', ROOTS = 'roots.txt', QUERY = 'query.txt', HOW = 'how-to-check.txt',
      FORMAT = 'ats saved proof 1';
const MOST = 2 ** 29, MOST_FILES = 70000;

// ---- ZIP, its files stored as they are

const CRC = Uint32Array.from({ length: 256 }, (_, n) => {
  for (let k = 0; k < 8; k++) n = n & 1 ? 0xedb88320 ^ (n >>> 1) : n >>> 1;
  return n;
});
function crc(bytes) {
  let sum = ~0;
  for (let i = 0; i < bytes.length; i++) sum = CRC[(sum ^ bytes[i]) & 255] ^ (sum >>> 8);
  return ~sum >>> 0;
}

// Numbers of 2 and of 4 bytes, the least byte first, as in the memory of every machine that has a browser.
const as16 = (...numbers) => new Uint8Array(Uint16Array.from(numbers).buffer);
const as32 = (...numbers) => new Uint8Array(Uint32Array.from(numbers).buffer);
const LOCAL = 0x04034b50, CENTRAL = 0x02014b50, LAST = 0x06054b50, LOCAL_SIZE = 30, VERSION = 20;

/** The parts of a ZIP file with these files: [name, bytes], made on this day. */
function zipped(files, moment) {
  const day = ((moment.getUTCFullYear() - 1980) << 9) | ((moment.getUTCMonth() + 1) << 5) | moment.getUTCDate();
  const front = [], back = [];
  let at = 0;
  for (const [name, bytes] of files) {
    const path = new TextEncoder().encode(name);
    // Version, no flag, stored, the time 0:00, day, sum and sizes, no extra field.
    const sizes = [as32(crc(bytes), bytes.length, bytes.length), as16(path.length, 0)];
    const common = joined([as16(VERSION, 0, 0, 0, day), ...sizes]);
    front.push(as32(LOCAL), common, path, bytes);
    back.push(as32(CENTRAL), as16(VERSION), common, as16(0, 0, 0), as32(0, at), path);
    at += LOCAL_SIZE + path.length + bytes.length;
  }
  const count = files.length, size = joined(back).length;
  return [...front, ...back, as32(LAST), as16(0, 0, count, count), as32(size, at), as16(0)];
}

/**
 * The files of a ZIP file that `zipped` made, by their names, or undefined if it is none. Its sums are not looked at:
 * what counts is what the check says.
 * @param {Uint8Array} bytes
 */
function unzipped(bytes) {
  const view = new DataView(bytes.buffer, bytes.byteOffset, bytes.length), files = new Map();
  let at = 0;
  while (at + LOCAL_SIZE <= bytes.length && view.getUint32(at, true) === LOCAL && files.size < MOST_FILES) {
    const [how, path, extra] = [8, 26, 28].map(place => view.getUint16(at + place, true));
    const size = view.getUint32(at + 18, true), name = at + LOCAL_SIZE, start = name + path + extra;
    if (how !== 0 || start + size > bytes.length) return undefined;
    files.set(new TextDecoder().decode(bytes.subarray(name, name + path)), bytes.slice(start, start + size));
    at = start + size;
  }
  return files.size ? files : undefined;
}

// ---- a saved proof

/** The query is read from a file of its own, so that no sign of it can be a part of a command. */
function howToCheck(answer, names) {
  const { way, root, shards, r } = answer, query = `"$(cat ${QUERY})"`, isMany = isCatalog(answer);
  const best = `./ats ${isMany ? 'catalog' : 'verify'} ${root} ${r} ${query} ${PROOF}`;
  const all = proofNames(answer).map((name, i) => `./ats both ${shards[i]} ${query} ${name}`);
  const text = name => `./ats fetch ${shards[placeOf(name).shard]} ${placeOf(name).doc} ${name}.text`;
  return [
    'The proof of an answer, and of the texts of documents. Whoever knows the root can check them, with no host:',
    `open this ZIP file on the page that saved it, or unpack it and call the program. The query is in ${QUERY}.`, '',
    ...(isMany ? [`./ats catalog-root ${ROOTS}`] : []), ...(way === 'all' ? all : [best]), ...names.map(text), '',
    ...(isMany ? [`The first one must print the catalog's root; ${ROOTS} has those of its archives, from 0 on.`] : []),
    `Is this the root that the archive's owner published? Everything rests on that: ${root}`, ''
  ].join('\n');
}

/** Of all documents of a catalog there is a proof from each archive. */
const proofNames = of => of.way === 'all' && isCatalog(of) ? of.shards.map((_, i) => `${i}.proof`) : [PROOF];

/**
 * The file to save. The documents of the answer are there to be read; the check finds them again.
 * @type {(answer: import('./asking.mjs').Answer, moment: Date) => Blob}
 */
export function saved(answer, moment) {
  const { way, root, shards, r, query, titles, proofs, docs: documents, texts } = answer;
  const rows = way === 'best' ? r : undefined, date = moment.toISOString();
  const about = JSON.stringify({ format: FORMAT, root, way, rows, query, titles, date, documents }, null, 1);
  const names = documents.filter(name => texts.has(name)), encode = text => new TextEncoder().encode(text);
  const files = [
    [ABOUT, encode(about)], [HOW, encode(howToCheck(answer, names))], [QUERY, encode(query)],
    ...(isCatalog(answer) ? [[ROOTS, encode(shards.map(it => `${it}\n`).join(''))]] : []),
    ...proofNames(answer).map((name, i) => [name, proofs[i]]), ...names.map(name => [`${name}.text`, texts.get(name)])
  ];
  return new Blob(zipped(files, moment), { type: 'application/zip' });
}

/**
 * The question, the proofs and the texts of a file that `saved` made, or undefined if it is none.
 * @param {File} file
 */
export async function opened(file) {
  if (file.size > MOST) return undefined;
  const files = unzipped(new Uint8Array(await file.arrayBuffer()));
  const about = questionOf(files?.get(ABOUT));
  if (!files || !about) return undefined;
  const listed = new TextDecoder().decode(files.get(ROOTS)).match(/^[0-9a-f]{64}$/gm), texts = new Map();
  const of = { ...about, shards: listed ?? [about.root] };
  const proofs = proofNames(of).flatMap(name => files.get(name) ?? []);
  for (const [name, bytes] of files) {
    if (name.endsWith('.text') && isName(name.slice(0, -5))) texts.set(name.slice(0, -5), bytes);
  }
  return proofs.length ? { ...of, name: file.name, proofs, texts } : undefined;
}

const isRows = n => Number.isInteger(n) && n >= 0 && n < 2 ** 32;

/** @param {Uint8Array | undefined} bytes */
function questionOf(bytes) {
  let it;
  try { it = JSON.parse(new TextDecoder().decode(bytes)); } catch { return undefined; }
  const isKnown = it?.format === FORMAT && /^[0-9a-f]{64}$/.test(it.root) && typeof it.query === 'string'
    && !badSign(it.query) && (it.way === 'all' || (it.way === 'best' && isRows(it.rows)));
  if (!isKnown) return undefined;
  const { root, way, query, rows = 0, titles, date } = it;
  const question = { root, way, r: rows, typed: query, query, phrases: [], passed: readQuery(query).passed };
  return { ...question, titles: titles === true, date: String(date) };
}

/** A name for the file, from the query's letters and digits. */
export const fileNameOf = ({ query }, day) =>
  `${[...query.matchAll(/[\p{L}\p{N}]+/gu)].join('-').slice(0, 40) || 'answer'}-${day}.zip`;

// ---- links and lines to cite

/**
 * The part of a link from `#` on: the root, the question, and the document that is open.
 * @param {{ root: string, way?: string, typed?: string, r?: number }} question
 * @param {{ host?: string, doc?: string }} more
 */
export function linkOf({ root, way, typed }, { host, doc }) {
  const parts = Object.entries({ host, root, way, query: typed, doc }).filter(([, value]) => value !== undefined);
  return `#${new URLSearchParams(/** @type {[string, string][]} */ (parts))}`;
}

/**
 * A line to cite: which document it is, and how it was found.
 * @type {(answer: import('./asking.mjs').Answer, doc: string, day: string) => string}
 */
export function citeOf(answer, doc, day) {
  const { way, root, query, r, docs } = answer, what = isCatalog(answer) ? 'catalog' : 'archive';
  const found = way === 'all' ? `one of all documents with every word of “${query}”`
    : `number ${docs.indexOf(doc) + 1} of the best ${r} for “${query}”`;
  return `${capital(documentOf(doc))} of the ${what} with the root ${root}, ${found}, checked ${day}`;
}
