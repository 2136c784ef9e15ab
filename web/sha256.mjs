// SHA-256 (FIPS 180-4) for many short strings: no promise for each, as WebCrypto has, and no object but the digest.

import { DIGEST } from './bytes.mjs';

/** @type {number[]} */
const primes = [];
for (let n = 2; primes.length < 64; n++) if (primes.every(prime => n % prime)) primes.push(n);
/** @param {number} root whose fraction's first 32 bits count */
const fraction = root => (root - Math.floor(root)) * 2 ** 32 | 0;
const CONSTANTS = Int32Array.from(primes, prime => fraction(Math.cbrt(prime)));
const START = Int32Array.from(primes.slice(0, 8), prime => fraction(Math.sqrt(prime)));

const WORDS = DIGEST / 4, BLOCK = 64, SHORT = 4 * BLOCK;
const short = new Uint8Array(SHORT), w = new Int32Array(BLOCK), state = new Int32Array(WORDS);
const NONE = new Uint8Array(0);

/** Takes the 16 words at the start of `w` into the state. */
function compress() {
  for (let i = 16; i < 64; i++) {
    const x = w[i - 15], y = w[i - 2];
    const s0 = (x >>> 7 | x << 25) ^ (x >>> 18 | x << 14) ^ x >>> 3;
    const s1 = (y >>> 17 | y << 15) ^ (y >>> 19 | y << 13) ^ y >>> 10;
    w[i] = s0 + w[i - 16] + s1 + w[i - 7] | 0;
  }
  // Not by destructuring, which walks an iterator and takes longer than the rounds.
  let a = state[0], b = state[1], c = state[2], d = state[3];
  let e = state[4], f = state[5], g = state[6], h = state[7];
  for (let i = 0; i < 64; i++) {
    const s1 = (e >>> 6 | e << 26) ^ (e >>> 11 | e << 21) ^ (e >>> 25 | e << 7);
    const t1 = h + s1 + (e & f ^ ~e & g) + CONSTANTS[i] + w[i] | 0;
    const s0 = (a >>> 2 | a << 30) ^ (a >>> 13 | a << 19) ^ (a >>> 22 | a << 10);
    const t2 = s0 + (a & b ^ a & c ^ b & c) | 0;
    h = g; g = f; f = e; e = d + t1 | 0; d = c; c = b; b = a; a = t1 + t2 | 0;
  }
  state[0] += a; state[1] += b; state[2] += c; state[3] += d;
  state[4] += e; state[5] += f; state[6] += g; state[7] += h;
}

/** @type {(words: Int32Array, at: number) => Uint8Array} the digest of these words, from `at`, as bytes */
function bytesOf(words, at) {
  const digest = new Uint8Array(DIGEST);
  for (let i = 0; i < DIGEST; i++) digest[i] = words[at + (i >> 2)] >>> 24 - 8 * (i & 3);
  return digest;
}

/**
 * The digest of a byte and one or two strings after it.
 * @param {number} tag
 * @param {Uint8Array} first
 * @param {Uint8Array} [second]
 */
export function sha256(tag, first, second = NONE) {
  const length = 1 + first.length + second.length, padded = length + 9 + BLOCK - 1 & -BLOCK;
  const room = padded <= SHORT ? short : new Uint8Array(padded);
  room[0] = tag;
  room.set(first, 1);
  room.set(second, 1 + first.length);
  room[length] = 0x80;
  room.fill(0, length + 1, padded);
  // Nothing here has 2^29 bytes, so the number of bits has at most 4 bytes.
  for (let i = 1, bits = length * 8; i <= 4; i++, bits >>>= 8) room[padded - i] = bits;
  state.set(START);
  for (let at = 0; at < padded;) {
    for (let i = 0; i < 16; i++, at += 4) {
      w[i] = room[at] << 24 | room[at + 1] << 16 | room[at + 2] << 8 | room[at + 3];
    }
    compress();
  }
  return bytesOf(state, 0);
}

// --- the tree of a block of a list, whose digests stay words until the root ---

export const ENTRIES = 64;
const row = new Int32Array(ENTRIES * WORDS);

/**
 * Puts the digest of the leaf of 6 bytes there into place i of the row.
 * @type {(bytes: Uint8Array, at: number, i: number) => void}
 */
function entryDigest(bytes, at, i) {
  w.fill(0, 2, 15);
  w[0] = bytes[at] << 16 | bytes[at + 1] << 8 | bytes[at + 2]; // the byte 00 comes first
  w[1] = bytes[at + 3] << 24 | bytes[at + 4] << 16 | bytes[at + 5] << 8 | 0x80;
  w[15] = 7 * 8;
  state.set(START);
  compress();
  row.set(state, i * WORDS);
}

/** @type {(i: number) => void} puts the digest of the node over places 2 i and 2 i + 1 of the row into place i */
function nodeInRow(i) {
  const at = 2 * i * WORDS, last = row[at + 15];
  w[0] = 1 << 24 | row[at] >>> 8;
  for (let k = 1; k < 16; k++) w[k] = row[at + k - 1] << 24 | row[at + k] >>> 8;
  state.set(START);
  compress();
  w.fill(0, 1, 15);
  w[0] = last << 24 | 0x800000;
  w[15] = 65 * 8;
  compress();
  row.set(state, i * WORDS);
}

/**
 * The root of the tree of these entries of 6 bytes each, at most 64.
 * @type {(bytes: Uint8Array, at: number, count: number) => Uint8Array}
 */
export function rootOfEntries(bytes, at, count) {
  for (let i = 0; i < count; i++) entryDigest(bytes, at + 6 * i, i);
  for (let n = count; n > 1; n = n + 1 >> 1) {
    for (let i = 0; i < n >> 1; i++) nodeInRow(i);
    if (n & 1) row.copyWithin((n >> 1) * WORDS, (n - 1) * WORDS, n * WORDS);
  }
  return bytesOf(row, 0);
}
