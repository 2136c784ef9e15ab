// The names of documents on the page: of an archive's the number, as 12, and of a catalog's the number of its archive
// before it, as 3-12. Texts, links and files go by these.

/**
 * Whether these roots are of the archives of a catalog, and not the root itself.
 * @param {{ root: string, shards: string[] }} of
 */
export const isCatalog = ({ root, shards }) => shards.length !== 1 || shards[0] !== root;

/** @type {(shard: number | bigint | undefined, doc: number | bigint) => string} */
export const nameOf = (shard, doc) => shard === undefined ? `${doc}` : `${shard}-${doc}`;

/** @param {string} text */
export const isName = text => /^((0|[1-9][0-9]{0,3})-)?(0|[1-9][0-9]{0,4})$/.test(text);

/** @param {string} name */
export function placeOf(name) {
  const [doc, shard = 0] = name.split('-').map(Number).reverse();
  return { shard, doc };
}

/**
 * Whether there can be a document of this name under these roots.
 * @type {(name: string, of: { root: string, shards: string[] }) => boolean}
 */
export const fits = (name, of) => name.includes('-') === isCatalog(of) && placeOf(name).shard < of.shards.length;

/** @type {(name: string) => string} as a person reads it */
export const documentOf = name => `document ${name.replace(/^(\d+)-(\d+)$/, '$2 of archive $1')}`;
