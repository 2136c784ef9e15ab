// Bytes: hexadecimal digits, order, and fields that a host sent.

import { hostFault } from './fault.mjs';

export const DIGEST = 32; // bytes

/** @param {Uint8Array} bytes */
export const hex = bytes => Array.from(bytes, byte => byte.toString(16).padStart(2, '0')).join('');

/** @type {(digits: string) => Uint8Array} the bytes of lower-case hexadecimal digits */
export const bytesOfHex = digits => Uint8Array.from(digits.match(/../g) ?? [], pair => parseInt(pair, 16));

/** @type {(a: Uint8Array, b: Uint8Array) => number} compares bytes as unsigned numbers; a prefix comes first */
export function compareBytes(a, b) {
  const least = Math.min(a.length, b.length);
  for (let i = 0; i < least; i++) if (a[i] !== b[i]) return a[i] - b[i];
  return a.length - b.length;
}

/** @type {(a: Uint8Array, b: Uint8Array) => boolean} */
export const same = (a, b) => a.length === b.length && compareBytes(a, b) === 0;

/** @type {(parts: Uint8Array[]) => Uint8Array} one string of all parts */
export function joined(parts) {
  const bytes = new Uint8Array(parts.reduce((sum, part) => sum + part.length, 0));
  parts.reduce((at, part) => (bytes.set(part, at), at + part.length), 0);
  return bytes;
}

/** Takes fields from the left. A field that ends too late is the host's fault. */
export class Fields {
  #file; #view;

  /**
   * @param {string} file
   * @param {Uint8Array} bytes
   */
  constructor(file, bytes) {
    this.#file = file;
    this.#view = new DataView(bytes.buffer, bytes.byteOffset, bytes.byteLength);
    this.bytes = bytes;
    this.at = 0;
  }

  /** Where a field of this size begins, which is then behind. */
  #past(size) {
    if (size > this.bytes.length - this.at) throw hostFault('cut', this.#file, `ends in a field of ${size} bytes`);
    this.at += size;
    return this.at - size;
  }

  /** @param {number} size */
  take(size) { return this.bytes.subarray(this.#past(size), this.at); }
  u8() { return this.bytes[this.#past(1)]; }
  u16() { return this.#view.getUint16(this.#past(2)); }
  u32() { return this.#view.getUint32(this.#past(4)); }

  /** @param {number} count */
  digests(count) { return Array.from({ length: count }, () => this.take(DIGEST)); }

  end() {
    if (this.at !== this.bytes.length) throw hostFault('wrong', this.#file, 'bytes after the last field');
  }
}
