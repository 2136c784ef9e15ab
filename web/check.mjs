// The glue: passes bytes to page.wasm, whose calls are those of reader/ats_reader.h, and reads the verdict. Not proved.
// A page and Node share it.

import { joined } from './bytes.mjs';

/**
 * What every call answers.
 * @typedef {object} Verdict
 * @property {number} status 0 accepted; 1 refused; 2 too little room, or a query that is not UTF-8; 4 out of the
 *   limits; 6 out of memory
 * @property {number} reason 0, or the number of the fault, as reader/ats_reader.h lists them
 * @property {number} count how many rows, documents, terms or shards there are; with a reason of 64 or more, the
 *   number of the shard whose proof is refused, from 0
 * @property {bigint} first
 * @property {bigint} second
 * @property {string} line what the command prints if the status is not 0; else empty
 * @property {number} ms how long the call took
 *
 * @typedef {{ doc: bigint, lower: bigint, upper: bigint }} Row
 * @typedef {{ shard: bigint, doc: bigint, lower: bigint, upper: bigint }} CatalogRow
 * @typedef {{ term: Uint8Array, weight: number }} Term
 *
 * What is shown beside the verdict is there only if it accepts. A root is 32 bytes. A RangeError says that one is not,
 * or that memory ran out: throw the checker away then.
 * @typedef {object} Checker
 * @property {(proof: Uint8Array, root: Uint8Array, query: string, r: number) => Verdict & { rows?: Row[] }} check
 *   what `verify` checks. Its rows are best first
 * @property {(proof: Uint8Array, root: Uint8Array, query: string) => Verdict & { docs?: number[] }} both
 *   what `both` checks. Its documents rise
 * @property {(proof: Uint8Array, root: Uint8Array, query: string, r: number) =>
 *   Verdict & { rows?: CatalogRow[] }} catalog
 *   what `catalog` checks. Its rows are best first
 * @property {(roots: Uint8Array[]) => Verdict & { root?: Uint8Array }} catalogRoot
 *   the root of the catalog whose shards have these roots, shard 0 first, of which there are 1 to 4,096
 * @property {(file: Uint8Array, root: Uint8Array, doc: number) => Verdict & { text?: Uint8Array }} text
 *   what `fetch` checks. `text` is a view of the file's own bytes, which may be no UTF-8
 * @property {(file: Uint8Array, oldRoot: Uint8Array, newRoot: Uint8Array) =>
 *   Verdict & { grown?: { old: number, new: number } }} growth
 *   what `growth` checks. `grown` has both numbers of documents
 * @property {(query: string) => Verdict & { terms?: Term[] }} query
 *   the terms of a query in the order of their bytes, each once, with how often the query has it
 */

const ROW = 24, CATALOG_ROW = 32, TERM = 72, WORD = 64, VERDICT = 32, LINE = 128, ROOT = 32;
const MOST_ROWS = 1000, MOST_DOCS = 65536, MOST_TERMS = 32;

/**
 * A checker with a memory of its own. After an exception throw it away: its memory is in no known state.
 * @param {WebAssembly.Module} module
 * @returns {Checker}
 */
export function checker(module) {
  const wasm = /** @type {any} */ (new WebAssembly.Instance(module).exports);

  // Numbers of the module are in the memory, least byte first.
  const view = (at, size) => new DataView(wasm.memory.buffer, Number(at), size);
  const bytesAt = (at, size) => new Uint8Array(wasm.memory.buffer, Number(at), size);

  // Calls `work` with a way to put bytes into the memory and one to make room there, and gives both back at its end.
  const lent = work => {
    /** @type {bigint[]} */
    const places = [];
    const room = size => {
      const at = wasm.page_room(BigInt(size));
      if (at === 0n) throw new RangeError('out of memory');
      places.push(at);
      return at;
    };
    const put = bytes => {
      const at = room(bytes.length);
      bytesAt(at, bytes.length).set(bytes);
      return [at, BigInt(bytes.length)];
    };
    const got = work(put, room);
    places.forEach(wasm.page_give);
    return got;
  };

  const checkedRoot = root => {
    if (root.length !== ROOT) throw new RangeError('a root has 32 bytes');
    return root;
  };
  const rootAt = (put, root) => put(checkedRoot(root))[0];
  const queryAt = (put, query) => put(new TextEncoder().encode(query));
  // A number that is longer would be cut to another one.
  const number = n => {
    if (!Number.isInteger(n) || n < 0 || n >= 2 ** 32) throw new RangeError('no whole number below 2^32');
    return n;
  };

  const lineOf = (verdict, room) => {
    const [text, size] = [room(LINE), room(8)];
    const status = wasm.ats_line(verdict, text, BigInt(LINE), size);
    return status === 0 ? new TextDecoder().decode(bytesAt(text, Number(view(size, 8).getBigUint64(0, true))))
                        : 'memory';
  };

  // One call: its verdict, its line, how long it took, and what `shown` reads after status 0.
  const verdictOf = (room, call, shown) => {
    const at = room(VERDICT), start = performance.now();
    call(at);
    const ms = performance.now() - start, it = view(at, VERDICT);
    const got = {
      status: it.getUint32(0, true), reason: it.getUint32(4, true), count: Number(it.getBigUint64(8, true)),
      first: it.getBigUint64(16, true), second: it.getBigUint64(24, true), line: lineOf(at, room), ms,
    };
    return got.status === 0 ? { ...got, ...shown(got) } : got;
  };
  const list = (at, count, size, read) =>
    Array.from({ length: count }, (_, i) => read(view(at + BigInt(i * size), size), i));

  // The best rows of a proof, by a call whose rows have a size and are read by `read`.
  const rowsOf = (call, size, read) => (proof, root, query, r) => lent((put, room) => {
    // Wanting more rows than the check allows is its own fault to find.
    const most = Math.min(number(r), MOST_ROWS), rows = room(most * size);
    const places = [...put(proof), rootAt(put, root), ...queryAt(put, query), r, rows, BigInt(most)];
    return verdictOf(room, at => call(...places, at), ({ count }) => ({ rows: list(rows, count, size, read) }));
  });
  const row = (it, at) => ({
    doc: it.getBigUint64(at, true), lower: it.getBigUint64(at + 8, true), upper: it.getBigUint64(at + 16, true),
  });

  return {
    check: rowsOf(wasm.ats_check, ROW, it => row(it, 0)),

    catalog: rowsOf(wasm.ats_catalog, CATALOG_ROW, it => ({ shard: it.getBigUint64(0, true), ...row(it, 8) })),

    catalogRoot: roots => lent((put, room) => {
      const root = room(ROOT), places = [...put(joined(roots.map(checkedRoot))), root];
      return verdictOf(room, at => wasm.ats_catalog_root(...places, at), () => ({ root: bytesAt(root, ROOT).slice() }));
    }),

    both: (proof, root, query) => lent((put, room) => {
      const docs = room(MOST_DOCS * 4);
      const places = [...put(proof), rootAt(put, root), ...queryAt(put, query), docs, BigInt(MOST_DOCS)];
      return verdictOf(room, at => wasm.ats_both(...places, at), ({ count }) => ({
        docs: list(docs, count, 4, it => it.getUint32(0, true)),
      }));
    }),

    text: (file, root, doc) => lent((put, room) => {
      const places = [...put(file), rootAt(put, root), number(doc)];
      return verdictOf(room, at => wasm.ats_text(...places, at), ({ first, second }) => ({
        text: file.subarray(Number(first), Number(first + second)),
      }));
    }),

    growth: (file, oldRoot, newRoot) => lent((put, room) => {
      const places = [...put(file), rootAt(put, oldRoot), rootAt(put, newRoot)];
      return verdictOf(room, at => wasm.ats_growth(...places, at), ({ first, second }) => ({
        grown: { old: Number(first), new: Number(second) },
      }));
    }),

    query: query => lent((put, room) => {
      const terms = room(MOST_TERMS * TERM);
      const places = [...queryAt(put, query), terms, BigInt(MOST_TERMS)];
      return verdictOf(room, at => wasm.ats_query(...places, at), ({ count }) => ({
        terms: list(terms, count, TERM, (it, i) => ({
          term: bytesAt(terms + BigInt(i * TERM), it.getUint32(WORD, true)).slice(),
          weight: it.getUint32(WORD + 4, true),
        })),
      }));
    }),
  };
}
