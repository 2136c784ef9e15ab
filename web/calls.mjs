// Calls to a worker, from the page. Not proved.

import { Fault } from './fault.mjs';

// Browsers compare no worker's file with a digest. So the page fetches the file of a worker by its pin, and makes the
// worker of a blob of just these bytes.
const policy = /** @type {any} */ (globalThis).trustedTypes?.createPolicy('worker', { createScriptURL: it => it });

/** @type {(file: Blob) => () => Worker} a function that makes workers of this file, one after another */
export function workersOf(file) {
  const place = URL.createObjectURL(new Blob([file], { type: 'text/javascript' }));
  return () => new Worker(policy ? policy.createScriptURL(place) : place, { type: 'module' });
}

/**
 * Does this with each of some, so many of them at the same time.
 * @template Some
 * @param {Some[]} some
 * @param {number} atOnce
 * @param {(one: Some) => Promise<void>} work
 */
export async function each(some, atOnce, work) {
  const left = some.values();
  const run = async () => { for (const one of left) await work(one); };
  await Promise.all(Array.from({ length: atOnce }, run));
}

/**
 * @typedef {import('./question.mjs').How} How
 * @typedef {{ message: object, done: (got: any) => void, failed: (why: any) => void, progress: (it: any) => void }}
 *   Waiting
 */

/** A worker and the calls that wait for it. The worker's side is in worker.mjs. */
export class Calls {
  #make; #start; #stops; #last = 0;
  /** @type {Worker | undefined} */
  #worker;
  /** @type {Map<number, Waiting>} */
  #waiting = new Map();

  /**
   * @param {() => Worker} make
   * @param {object} start what the worker gets first
   * @param {boolean} stops whether a call can be stopped in the worker; if not, a stop ends the worker, and another
   *   one gets the calls that are left
   */
  constructor(make, start, stops) {
    this.#make = make;
    this.#start = start;
    this.#stops = stops;
  }

  /**
   * @param {string} call
   * @param {unknown} words
   * @param {How} how
   * @returns {Promise<any>}
   */
  async call(call, words, { signal, progress = () => {} } = {}) {
    signal?.throwIfAborted();
    const id = ++this.#last, stop = () => this.#stop(id, signal?.reason);
    signal?.addEventListener('abort', stop);
    try {
      return await new Promise((done, failed) => {
        const message = { id, call, words };
        this.#waiting.set(id, { message, done, failed, progress });
        if (this.#worker) this.#worker.postMessage(message);
        else this.#begin();
      });
    } finally {
      signal?.removeEventListener('abort', stop);
    }
  }

  /** Makes a worker, which gets all calls that wait. */
  #begin() {
    this.#worker = this.#make();
    this.#worker.addEventListener('message', ({ data }) => this.#came(data));
    this.#worker.addEventListener('error', () => this.#ended());
    this.#worker.postMessage({ start: this.#start });
    this.#waiting.forEach(({ message }) => this.#worker?.postMessage(message));
  }

  #came({ id, got, fault, progress }) {
    const waiting = this.#waiting.get(id);
    if (progress) return waiting?.progress(progress);
    this.#waiting.delete(id);
    if (fault) waiting?.failed(new Fault(fault.word, fault.line));
    else waiting?.done(got);
  }

  /** @type {(id: number, why: unknown) => void} */
  #stop(id, why) {
    this.#waiting.get(id)?.failed(why);
    if (!this.#waiting.delete(id)) return;
    if (this.#stops) return this.#worker?.postMessage({ stop: id });
    this.#worker?.terminate();
    this.#worker = undefined;
    if (this.#waiting.size) this.#begin();
  }

  #ended() {
    this.#worker?.terminate();
    this.#worker = undefined;
    this.#waiting.forEach(({ failed }) => failed(new Fault('stopped', 'the worker ended')));
    this.#waiting.clear();
  }
}
