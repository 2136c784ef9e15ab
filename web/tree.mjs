// Trees of RFC 6962: which digests a section of a proof needs, and a tree of which only some parts are known.

import { same } from './bytes.mjs';
import { hostFault } from './fault.mjs';
import { sha256 } from './sha256.mjs';

const LEAF = 0, NODE = 1;

/** @param {Uint8Array} leaf */
export const leafDigest = leaf => sha256(LEAF, leaf);
/** @type {(left: Uint8Array, right: Uint8Array) => Uint8Array} */
const nodeDigest = (left, right) => sha256(NODE, left, right);

/** @type {(n: number) => number} the largest power of two below n, for n from 2 to 2^31 */
const splitOf = n => 2 ** (31 - Math.clz32(n - 1));

/**
 * @param {Uint8Array[]} digests
 * @returns {Uint8Array}
 */
export function rootOf(digests, from = 0, to = digests.length) {
  if (to - from === 1) return digests[from];
  const middle = from + splitOf(to - from);
  return nodeDigest(rootOf(digests, from, middle), rootOf(digests, middle, to));
}

/**
 * The parts (start, count) beside the way from the root of n leaves down to an aligned part, from the root down.
 * @param {number} n
 * @param {number} start
 * @param {number} count
 */
export function besides(n, start, count) {
  const found = [];
  for (let from = 0, size = n; size > count;) {
    const k = splitOf(size);
    if (start < from + k) {
      found.push({ start: from + k, count: size - k, right: true });
      size = k;
    } else {
      found.push({ start: from, count: k, right: false });
      from += k;
      size -= k;
    }
  }
  return found;
}

/**
 * The largest parts without a shown leaf, from left to right. `shown` rises.
 * @type {(n: number, shown: number[]) => { start: number, count: number }[]}
 */
function hidden(n, shown) {
  /** @type {{ start: number, count: number }[]} */
  const found = [];
  /** @type {(start: number, count: number, from: number, to: number) => void} */
  const visit = (start, count, from, to) => {
    if (from === to) found.push({ start, count });
    else if (count > 1) {
      const k = splitOf(count);
      let middle = from;
      while (middle < to && shown[middle] < start + k) middle++;
      visit(start, k, from, middle);
      visit(start + k, count - k, middle, to);
    }
  };
  visit(0, n, 0, shown.length);
  return found;
}

// Starts and counts are below 2^25, so a key is a whole number below 2^53.
/** @type {(start: number, count: number) => number} */
const keyOf = (start, count) => start * 2 ** 25 + count;

/** A tree of n leaves of which some aligned parts are known, with what is beside the ways to them. */
export class KnownTree {
  #n; #root;
  /** @type {Map<number, Uint8Array>} */
  #known = new Map();

  /**
   * @param {number} n
   * @param {Uint8Array} [root] which nothing can be added without
   * @param {string} file that has its parts
   */
  constructor(n, root = new Uint8Array(0), file = '') {
    this.#n = n;
    this.#root = root;
    this.file = file;
  }

  /**
   * Adds a part by the digests of its leaves and its audit path, which comes next in these fields. If they do not
   * belong to the root, nothing is added, and it is the host's fault.
   * @type {(start: number, leaves: Uint8Array[], fields: import('./bytes.mjs').Fields) => void}
   */
  add(start, leaves, fields) {
    const beside = besides(this.#n, start, leaves.length), path = fields.digests(beside.length);
    const over = (top, digest, i) => beside[i].right ? nodeDigest(top, digest) : nodeDigest(digest, top);
    if (leaves.length === 0 || !same(path.reduceRight(over, rootOf(leaves)), this.#root))
      throw hostFault('wrong', this.file, `leaf ${start}`);
    beside.forEach((part, i) => this.#known.set(keyOf(part.start, part.count), path[i]));
    this.know(start, leaves);
  }

  /** @type {(start: number, leaves: Uint8Array[]) => void} */
  know(start, leaves) {
    leaves.forEach((digest, i) => this.#known.set(keyOf(start + i, 1), digest));
  }

  /** @type {(start: number, count: number) => Uint8Array} */
  #digest(start, count) {
    const key = keyOf(start, count);
    let found = this.#known.get(key);
    if (!found) {
      if (count === 1) throw new Error(`leaf ${start} is in no known part`);
      const k = splitOf(count);
      found = nodeDigest(this.#digest(start, k), this.#digest(start + k, count - k));
      this.#known.set(key, found);
    }
    return found;
  }

  /**
   * The digests that a section needs which shows these leaves, all of known parts.
   * @param {number[]} shown
   */
  beside(shown) {
    if (shown.length === 0) return [this.#root];
    return hidden(this.#n, shown).map(({ start, count }) => this.#digest(start, count));
  }
}
