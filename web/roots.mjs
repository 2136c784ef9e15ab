// The root that the person accepted, which this browser keeps, and the roots that it had before the archive grew. And
// what becomes of a newer one: it counts only with a growth that the check accepts, and only when the person takes it.
// Not proved.
import { dayOf } from './sentences.mjs';

const KEPT = 'root';

/**
 * The root, when it was kept, and those that it grew from with the days on which they were left.
 * @returns {{ root?: string, day?: string, before: { root: string, day: string }[] }}
 */
export function kept() {
  try { return { before: [], ...JSON.parse(localStorage.getItem(KEPT) ?? '{}') }; } catch { return { before: [] }; }
}

/**
 * The day on which the root was left, if it is one that the kept one grew from.
 * @param {string} root
 */
export const leftOn = root => kept().before.find(it => it.root === root)?.day;

/**
 * Keeps the root. If it grew from the kept one, that is remembered. Returns whether the browser could.
 * @type {(root: string, grown: boolean) => boolean}
 */
export function keep(root, grown) {
  const own = kept(), day = dayOf(new Date());
  const before = grown && own.root ? [...own.before, { root: own.root, day }] : [];
  try {
    localStorage.setItem(KEPT, JSON.stringify({ root, day, before }));
    return true;
  } catch {
    return false;
  }
}

export const COMPARE = 'Compare it with the root that the owner published.';
/** How a root came, in a sentence. */
const ORIGINS = {
  page: 'It is built into this page, which whoever made the page stands for.',
  link: `From the link that you opened. ${COMPARE}`,
  file: `From the file that you opened. ${COMPARE}`,
  grown: `The archive grew to this root. ${COMPARE}`,
  typed: 'You entered it. It must come from the archive’s owner.',
};

/**
 * Where a root came from.
 * @param {string} root
 * @param {string} how a key of ORIGINS, or anything else for a root that is kept
 */
export function originOf(root, how) {
  const { root: own, day } = kept();
  if (root === own) return `Kept in this browser on ${day}.`;
  if (leftOn(root)) return `You left this root on ${leftOn(root)}: the archive has grown since.`;
  return ORIGINS[how] ?? ORIGINS.typed;
}

/**
 * What an offered root is to the person's: the same; grown from it, with both numbers of archives, and those of
 * documents of the last old archive if that has grown; older, with the day on which it was left; other, since no growth
 * leads there; or refused, with the verdict.
 * @typedef {{ kind: 'same' | 'grown' | 'older' | 'other' | 'refused', archives?: number[], before?: number,
 *   after?: number, day?: string, got?: any }} Relation
 *
 * @param {import('./asking.mjs').Asking} asking
 * @param {string} root
 * @param {string} offered
 * @param {AbortSignal} [signal]
 * @returns {Promise<Relation>}
 */
export async function relation(asking, root, offered, signal) {
  if (offered === root) return { kind: 'same' };
  if (leftOn(offered)) return { kind: 'older', day: leftOn(offered) };
  const [old, now] = await Promise.all([root, offered].map(it => asking.shards(it, signal))), last = old.length - 1;
  // Only the last archive of a catalog grows, and others come after it.
  if (now.length < old.length || old.some((it, i) => i < last && it !== now[i])) return { kind: 'other' };
  const archives = [old.length, now.length];
  return old[last] === now[last] ? { kind: 'grown', archives }
    : { archives, ...await asking.growth(old[last], now[last], signal) };
}
