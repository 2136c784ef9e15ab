// Reads files of an HTTP host by ranges, within bounds. A host that knows no ranges gives whole files.

import { joined } from './bytes.mjs';
import { Fault, hostFault, throwOthers } from './fault.mjs';

const PAUSES = [250, 1000]; // milliseconds before a read is tried again
const PACE = 1000; // bytes: a host that sends fewer in the time of silence is silent
const IN_FLIGHT = 16; // requests
const MOST_FILE = { head: 2 ** 16, texts: 2 ** 24, lists: 2 ** 26 }, MOST_OTHER = 2 ** 27; // bytes of a whole file

/** @typedef {import('./question.mjs').Question} Question */

/** Does at most IN_FLIGHT pieces of work at the same time. */
function gate() {
  /** @type {((none?: undefined) => void)[]} */
  const waiting = [];
  let running = 0;
  /** @type {<Made>(work: () => Promise<Made>) => Promise<Made>} */
  return async work => {
    if (running === IN_FLIGHT) await new Promise(go => waiting.push(go));
    else running++;
    try {
      return await work();
    } finally {
      const next = waiting.shift();
      if (next) next();
      else running--;
    }
  };
}

/** Ends a request with its question, or when next to nothing has moved for too long. */
class Watch {
  #question; #forget; #moving = 0;
  #controller = new AbortController();
  /** @type {ReturnType<typeof setTimeout> | undefined} */
  #timer;

  /** @param {Question} question */
  constructor(question) {
    this.#question = question;
    this.isSilent = false;
    this.#forget = question.whenEnded(() => this.#controller.abort(question.signal.reason));
    this.moved(PACE);
  }

  get signal() { return this.#controller.signal; }

  /** @param {number} bytes */
  moved(bytes) {
    this.#moving += bytes;
    if (this.#moving < PACE) return;
    this.#moving = 0;
    clearTimeout(this.#timer);
    this.#timer = setTimeout(() => { this.isSilent = true; this.#controller.abort(); }, this.#question.limits.silence);
  }

  /** What is left of the body is not wanted. */
  end() {
    clearTimeout(this.#timer);
    this.#forget();
    this.#controller.abort();
  }

  /**
   * The bytes of a reply, until enough are there; the rest is left.
   * @type {(reply: Response, enough: number) => Promise<Uint8Array>}
   */
  async take(reply, enough) {
    const parts = [], reader = /** @type {ReadableStream<Uint8Array>} */ (reply.body).getReader();
    for (let length = 0; length < enough;) {
      const { value, done } = await reader.read();
      if (done) break;
      this.moved(value.length);
      const part = value.subarray(0, enough - length);
      parts.push(part);
      length += part.length;
      this.#question.took(part.length);
    }
    return joined(parts);
  }

  /**
   * All bytes of a reply, whose number nobody knows before.
   * @type {(reply: Response, most: number, path: string) => Promise<Uint8Array>}
   */
  async takeAll(reply, most, path) {
    const bytes = await this.take(reply, most + 1);
    if (bytes.length > most) throw hostFault('long', path, `more than ${most} bytes`);
    return bytes;
  }
}

/** @type {(status: number, path: string) => Fault} */
function faultOfStatus(status, path) {
  const word = status === 429 || status === 503 ? 'busy' : status >= 500 || status === 408 ? 'link' : 'missing';
  return hostFault(word, path, `status ${status}`);
}

/** A host of files, by its address. */
export class HttpHost {
  #base; #within = gate();
  /** @type {Map<string, { bytes: Promise<Uint8Array>, isAgain: boolean }>} whether they came past every cache */
  #whole = new Map();

  /** @param {string} base the address of the folder that has the folders of archives */
  constructor(base) {
    this.#base = base.replace(/\/+$/, '');
  }

  /** @type {import('./question.mjs').Host['read']} */
  read(path, from, to, question, isAgain = false) {
    const headers = { Range: `bytes=${from}-${to - 1}` }, cache = isAgain ? 'reload' : 'default';
    return this.#again(question, async () => {
      const whole = this.#kept(path, isAgain);
      if (whole) return this.#partOf(whole, path, from, to, question);
      return this.#request(path, { headers, cache }, question, async (reply, watch) => {
        if (reply.status === 206) return watch.take(reply, to - from);
        if (reply.status === 416) return new Uint8Array(0);
        if (reply.status !== 200) throw faultOfStatus(reply.status, path);
        return this.#partOf(this.#keepWhole(path, isAgain, reply, watch), path, from, to, question);
      });
    });
  }

  /** @type {import('./question.mjs').Host['file']} */
  file(path, most, question) {
    return this.#again(question, () => this.#request(path, { cache: 'no-cache' }, question, async (reply, watch) => {
      if (reply.status === 404 || reply.status === 410) return undefined;
      if (reply.status !== 200) throw faultOfStatus(reply.status, path);
      return watch.takeAll(reply, most, path);
    }));
  }

  forget() { this.#whole.clear(); }

  /**
   * Tries what failed for a while again.
   * @template Made
   * @param {Question} question
   * @param {() => Promise<Made>} work
   */
  async #again(question, work) {
    for (const pause of PAUSES) {
      try {
        return await work();
      } catch (fault) {
        throwOthers(fault, 'link', 'busy');
        await question.pause(pause);
      }
    }
    return work();
  }

  /**
   * @template Made
   * @param {string} path
   * @param {RequestInit} how
   * @param {Question} question
   * @param {(reply: Response, watch: Watch) => Promise<Made>} use
   * @returns {Promise<Made>}
   */
  #request(path, how, question, use) {
    return this.#within(async () => {
      question.began();
      const watch = new Watch(question);
      try {
        const { signal } = watch, address = `${this.#base}/${path}`;
        const reply = await fetch(address, { ...how, credentials: 'omit', redirect: 'error', signal });
        watch.moved(PACE);
        return await use(reply, watch);
      } catch (fault) {
        question.signal.throwIfAborted();
        if (watch.isSilent) throw hostFault('silent', path, `nothing for ${question.limits.silence} ms`);
        throw fault instanceof Fault ? fault : hostFault('link', path, `${fault}`);
      } finally {
        watch.end();
      }
    });
  }

  /** What another question's first try got out of a cache is not used again. */
  #kept(path, isAgain) {
    const kept = this.#whole.get(path);
    return kept && (kept.isAgain || !isAgain) ? kept.bytes : undefined;
  }

  /**
   * A reply without a range has the whole file. Many may come at the same time, and one is enough.
   * @type {(path: string, isAgain: boolean, reply: Response, watch: Watch) => Promise<Uint8Array>}
   */
  #keepWhole(path, isAgain, reply, watch) {
    const kept = this.#kept(path, isAgain);
    if (kept) return kept;
    const bytes = watch.takeAll(reply, MOST_FILE[path.replace(/.*\//, '')] ?? MOST_OTHER, path);
    bytes.catch(() => this.#whole.delete(path));
    this.#whole.set(path, { bytes, isAgain });
    return bytes;
  }

  /**
   * @param {Promise<Uint8Array>} whole
   * @param {string} path
   * @param {number} from
   * @param {number} to
   * @param {Question} question
   */
  async #partOf(whole, path, from, to, question) {
    try {
      return (await whole).slice(from, to);
    } catch (fault) {
      question.signal.throwIfAborted();
      if (fault instanceof Fault && fault.word === 'long') throw fault;
      throw hostFault('link', path, 'the whole file did not come');
    }
  }
}
