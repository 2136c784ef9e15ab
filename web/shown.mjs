// What proofs of several archives are as one file, and what an accepted proof shows beside its answer, as
// docs/formats.md lays both out. Not proved.

import { DIGEST, Fields, bytesOfHex, joined } from './bytes.mjs';

const FRONT = Uint8Array.of(0x41, 0x54, 0x53, 0x53, 1); // ATSS, the version
const START = 6; // bytes before the header of a proof
/** @param {number} n */
const u32 = n => Uint8Array.of(n >>> 24, n >>> 16, n >>> 8, n);

/**
 * The file of a catalog's proof: the roots of its archives, and a proof from each.
 * @type {(roots: string[], proofs: Uint8Array[]) => Uint8Array}
 */
export const catalogFile = (roots, proofs) => joined([
  FRONT, u32(roots.length), ...roots.map(bytesOfHex), ...proofs.flatMap(proof => [u32(proof.length), proof])
]);

/**
 * The proofs in such a file.
 * @param {Uint8Array} file that the check accepted
 */
export function proofsIn(file) {
  const fields = new Fields('proof', file);
  fields.take(FRONT.length);
  const count = fields.u32();
  fields.digests(count);
  return Array.from({ length: count }, () => fields.take(fields.u32()));
}

/**
 * The number of documents of the archive, and for each term of the query, in the order of its bytes, how many documents
 * have it.
 * @param {Uint8Array} proof that the check accepted
 */
export function shownBy(proof) {
  const fields = new Fields('proof', proof);
  fields.take(START);
  fields.u8(); // the header begins with its version
  const documents = fields.u32();
  fields.take(4 + 3 * DIGEST);
  const terms = fields.u16(), counts = Array.from({ length: fields.u16() }, () => {
    fields.u32();
    fields.take(fields.u8());
    const count = fields.u32();
    fields.take(DIGEST);
    return count;
  });
  fields.digests(fields.u16());
  const having = Array.from({ length: terms }, () => (fields.u8() === 1 ? counts[fields.u16()] : (fields.u16(), 0)));
  return { documents, having };
}
