// What one question may take, and its reading of bound bytes from one host.

import { Fault, hostFault } from './fault.mjs';

/**
 * @typedef {object} Limits of a question
 * @property {number} silence milliseconds
 * @property {number} total milliseconds
 * @property {number} bytes
 * @property {number} requests
 * @property {number} documents whose terms one proof of all documents may read
 *
 * @typedef {{ signal?: AbortSignal, progress?: (it: object) => void }} How
 *
 * @typedef {object} Host
 * @property {(path: string, from: number, to: number, question: Question, isAgain?: boolean) => Promise<Uint8Array>}
 *   read these bytes of a file, or fewer if it ends before `to`; again, past every cache, if what came before did not
 *   fit
 * @property {(path: string, most: number, question: Question) => Promise<Uint8Array | undefined>} file a small one
 *   that may change, or undefined if the host has none of this name
 * @property {() => void} forget what it keeps
 *
 * What `bind` makes of these bytes of a file, or of fewer if the file ends before `to`. It throws a Fault for bytes
 * that do not fit.
 * @typedef {<Made>(path: string, from: number, to: number, bind: (bytes: Uint8Array) => Made) => Promise<Made>} Read
 */

/** @type {Limits} */
export const LIMITS = { silence: 30000, total: 300000, bytes: 2 ** 28, requests: 2 ** 15, documents: 10000 };

/** One question: it counts, shows progress, and ends by `how.signal` or after its time. */
export class Question {
  #progress; #timer; #requests = 0; #bytes = 0;
  #controller = new AbortController();
  /** @type {Set<() => void>} */
  #ends = new Set(); // one listener calls them all: Node warns of more than ten

  /**
   * @param {Limits} limits
   * @param {How} how
   */
  constructor(limits, { signal, progress = () => {} } = {}) {
    this.limits = limits;
    this.#progress = progress;
    const late = new Fault('silent', `host: no answer within ${limits.total} ms`);
    this.#timer = setTimeout(() => this.#controller.abort(late), limits.total);
    this.signal.addEventListener('abort', () => this.#ends.forEach(end => end()));
    const stop = () => this.#controller.abort(signal?.reason);
    if (signal?.aborted) stop();
    signal?.addEventListener('abort', stop, { signal: this.signal });
  }

  get signal() { return this.#controller.signal; }

  began() {
    this.signal.throwIfAborted();
    if (++this.#requests > this.limits.requests)
      throw new Fault('long', `host: more than ${this.limits.requests} requests`);
    this.#show();
  }

  /** @param {number} bytes */
  took(bytes) {
    this.#bytes += bytes;
    if (this.#bytes > this.limits.bytes) throw new Fault('long', `host: more than ${this.limits.bytes} bytes`);
    this.#show();
  }

  #show() { this.#progress({ bytes: this.#bytes, requests: this.#requests }); }

  /** @type {(end: () => void) => () => void} calls `end` if the question ends. What it returns takes this back */
  whenEnded(end) {
    this.#ends.add(end);
    return () => this.#ends.delete(end);
  }

  /**
   * Waits, or ends with the question.
   * @param {number} ms
   */
  pause(ms) { return this.#orEnd(new Promise(done => setTimeout(done, ms))); }

  /**
   * What `work` returns, or the reason why the question ended before.
   * @template Made
   * @param {(question: Question) => Promise<Made>} work
   */
  async ended(work) {
    try {
      return await this.#orEnd(work(this));
    } finally {
      clearTimeout(this.#timer);
      this.#progress = () => {};
      this.#controller.abort(new Fault('silent', 'host: the question has ended'));
    }
  }

  /**
   * @template Made
   * @param {Promise<Made>} promise
   * @returns {Promise<Made>}
   */
  #orEnd(promise) {
    return new Promise((done, failed) => {
      const end = () => failed(this.signal.reason);
      if (this.signal.aborted) end();
      promise.finally(this.whenEnded(end)).then(done, failed);
    });
  }
}

/**
 * Reads for one question from one host, and keeps what was bound.
 * @param {Host} host
 * @param {import('./cache.mjs').Cache} cache
 * @param {Question} question
 * @param {boolean} isAgain whether nothing that is kept anywhere is used
 * @returns {Read}
 */
export const readerOf = (host, cache, question, isAgain) => async (path, from, to, bind) => {
  const key = `${path} ${from} ${to}`, kept = isAgain ? undefined : await cache.get(key);
  if (kept) return bind(kept);
  const bytes = await host.read(path, from, to, question, isAgain);
  if (bytes.length > to - from) throw hostFault('long', path, `${bytes.length} bytes for ${to - from}`);
  const value = bind(bytes);
  cache.put(key, bytes);
  return value;
};
