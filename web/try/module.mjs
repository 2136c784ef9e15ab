// The module of the page, if web/out has it: it gives the terms of queries and checks answers.

import { existsSync, readFileSync } from 'node:fs';
import { bytesOfHex, hex } from '../bytes.mjs';
import { checker } from '../check.mjs';

const module = new URL('../out/page.wasm', import.meta.url);

/** Checks that throw if the module does not accept, or undefined if there is no module. */
export async function checkOf() {
  if (!existsSync(module)) return undefined;
  const it = checker(await WebAssembly.compile(readFileSync(module)));
  const accepted = ({ status, line }, about) => {
    if (status !== 0) throw new Error(`the check refuses ${about}: ${line}`);
  };
  const spelt = terms => terms.map(({ term, weight }) => `${hex(term)} ${weight}`).join();
  return {
    query: it.query,
    ranked(proof, root, query, terms, r) {
      accepted(it.check(proof, bytesOfHex(root), query, r), JSON.stringify(query));
      const { terms: own = [] } = it.query(query);
      if (spelt(own) !== spelt(terms)) throw new Error(`other terms of ${JSON.stringify(query)}`);
    },
    milliseconds(proof, root, query, r, isCatalog) {
      const got = it[isCatalog ? 'catalog' : 'check'](proof, bytesOfHex(root), query, r);
      accepted(got, JSON.stringify(query));
      return got.ms;
    },
    both(proof, root, query) { accepted(it.both(proof, bytesOfHex(root), query), JSON.stringify(query)); },
    text(file, root, doc) { accepted(it.text(file, bytesOfHex(root), doc), `text ${doc}`); },
  };
}
