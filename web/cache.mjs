// Keeps ranges that were bound, so that they are not read again: in memory, and where a browser has it in IndexedDB,
// which outlives the page. Not every browser caches ranges, and the Cache API takes no reply of status 206. What is
// kept is bound again when it is used.

const MOST_MEMORY = 2 ** 24, MOST_STORED = 2 ** 26; // bytes
const NAME = 'ats-ranges', RANGES = 'ranges', SIZE = '', WAIT_MS = 50, PATIENCE_MS = 1000;

/**
 * @typedef {object} Cache
 * @property {(key: string) => Promise<Uint8Array | undefined>} get
 * @property {(key: string, bytes: Uint8Array) => void} put
 * @property {(folder: string) => Promise<void>} forget what lies in the folders whose names begin like this
 */

export class MemoryCache {
  #size = 0;
  /** @type {Map<string, Uint8Array>} */
  #ranges = new Map();

  /** @type {Cache['get']} */
  async get(key) { return this.#ranges.get(key); }

  /** @type {Cache['put']} */
  put(key, bytes) {
    if (this.#size + bytes.length > MOST_MEMORY) { this.#ranges.clear(); this.#size = 0; }
    if (bytes.length > MOST_MEMORY) return;
    this.#ranges.set(key, bytes);
    this.#size += bytes.length;
  }

  /** @type {Cache['forget']} */
  async forget(folder) {
    for (const key of this.#ranges.keys()) if (key.startsWith(folder)) this.#ranges.delete(key);
  }
}

/**
 * There is a limit, since another page may hold the store and never give it back.
 * @template Made
 * @param {IDBRequest<Made>} request
 * @returns {Promise<Made>}
 */
const settled = request => new Promise((done, failed) => {
  const inUse = () => failed(new Error('the store is in use')), timer = setTimeout(inUse, PATIENCE_MS);
  request.onsuccess = () => { clearTimeout(timer); done(request.result); };
  request.onerror = () => { clearTimeout(timer); failed(request.error); };
  Object.assign(request, { onblocked: inUse });
});

/** In front of the store is a memory. A store that fails keeps nothing, is no fault, and is not read again. */
export class StoredCache {
  #store; #answers = true;
  #memory = new MemoryCache();
  /** @type {Map<string, Uint8Array>} */
  #coming = new Map();

  /** @param {IDBDatabase} store */
  constructor(store) {
    this.#store = store;
    store.onversionchange = () => store.close();
  }

  static async open() {
    try {
      const opening = indexedDB.open(NAME, 1);
      opening.onupgradeneeded = () => opening.result.createObjectStore(RANGES);
      return new StoredCache(await settled(opening));
    } catch {
      return new MemoryCache();
    }
  }

  /** @type {(mode: IDBTransactionMode) => IDBObjectStore} has how many bytes it keeps, too, beside the ranges */
  #ranges(mode) { return this.#store.transaction(RANGES, mode).objectStore(RANGES); }

  /** @type {Cache['get']} */
  async get(key) {
    const near = await this.#memory.get(key);
    if (near || !this.#answers) return near;
    try {
      return await settled(this.#ranges('readonly').get(key));
    } catch {
      this.#answers = false;
      return undefined;
    }
  }

  /**
   * What comes within a moment is stored at once.
   * @type {Cache['put']}
   */
  put(key, bytes) {
    this.#memory.put(key, bytes);
    if (this.#coming.size === 0) setTimeout(() => this.#storeAll(), WAIT_MS);
    this.#coming.set(key, bytes);
  }

  async #storeAll() {
    const coming = [...this.#coming], added = coming.reduce((sum, [, bytes]) => sum + bytes.length, 0);
    this.#coming.clear();
    if (added > MOST_STORED) return;
    try {
      const ranges = this.#ranges('readwrite');
      const before = await settled(ranges.get(SIZE)) ?? 0, isFull = before + added > MOST_STORED;
      if (isFull) ranges.clear();
      for (const [key, bytes] of coming) ranges.put(bytes, key);
      await settled(ranges.put(isFull ? added : before + added, SIZE));
    } catch { /* then it is read again */ }
  }

  /** @type {Cache['forget']} */
  async forget(folder) {
    await this.#memory.forget(folder);
    for (const key of this.#coming.keys()) if (key.startsWith(folder)) this.#coming.delete(key);
    try {
      await settled(this.#ranges('readwrite').delete(IDBKeyRange.bound(folder, `${folder}\uffff`)));
    } catch { /* then a later question forgets it */ }
  }
}
