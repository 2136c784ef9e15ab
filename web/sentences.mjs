// What the page says, in plain words. The lines are those of docs/formats.md. Not proved.

// Query words are numbered from 0 in byte order, documents and rows from 0. {n} and {m} are the numbers of the verdict,
// {it} is what was checked: see NAMES.
const ROOM = 'The page made too little room. This is a fault of the page.';
const REASONS = {
  1: 'The query is no text that can be sent.',
  2: 'You asked for {n} rows. Ask for 1 to 1,000.',
  3: ROOM,
  4: 'The query has {n} bytes. It may have 4,000.',
  5: 'The query has no word to look for. A word has a letter or a digit, and 64 bytes at most.',
  6: 'The query has {n} words. It may have 255.',
  7: 'The query has {n} different words. It may have 32.',
  8: 'The {it} is longer than any may be ({n} bytes).',
  9: 'The {it} is cut off: it ends inside the field that starts at byte {n}.',
  10: 'The {it} does not start as one does.',
  11: 'Byte {n} of the {it} names a version that this page does not know.',
  12: 'Byte {n} of the {it} names neither of the two kinds of proof.',
  13: 'The number at byte {n} of the {it} is outside its range.',
  14: 'The number at byte {n} of the {it} is out of order.',
  15: 'The {it} goes on after its end, which is before byte {n}.',
  16: 'The {it} is not for your root. It is of another archive, or of an older or newer state of this one.',
  17: 'The proof is for a query with {n} different words. Your query has another number of them.',
  18: 'The part of the archive’s dictionary in the proof does not fit the size of the dictionary.',
  19: 'The part of the archive’s dictionary in the proof is not the archive’s: it leads to another root.',
  20: 'For query word {n} the proof does not show whether the archive has it. It may be a proof for another query.',
  21: 'In the list of query word {n}, entry {m} names a document that the proof does not show.',
  22: 'In the list of query word {n}, entry {m} names a document for a second time.',
  23: 'The part of the list of query word {n} in the proof does not fit the length of that list.',
  24: 'The list of query word {n} in the proof is not the archive’s: it leads to another root.',
  25: 'Document {n} of those that the proof names is in none of the lists that it shows.',
  26: 'The documents in the proof do not fit the number of documents in the archive.',
  27: 'The documents in the proof are not the archive’s: they lead to another root.',
  28: 'The words of document {n} in the proof do not fit the number of words that it has.',
  29: 'The words of document {n} in the proof are not the archive’s: they lead to another root.',
  30: 'For document {n} the proof does not show whether it has query word {m}.',
  31: 'Row {n} of the answer names a document that the proof does not show.',
  32: 'Row {n} of the answer names the document of an earlier row.',
  33: 'What the proof shows does not settle this answer. For example, a row was left out, added or moved.',
  34: 'This browser ran out of memory.',
  35: 'The proof is of the other kind, which never shows that no document is missing.',
  36: 'The proof has {n} rows of an answer. One of all documents has none.',
  37: 'The proof shows no list of a query word to its end. So a document may be missing.',
  38: ROOM,
  39: 'The archive has only {n} documents, and this is none of them.',
  40: 'The digests beside the text do not fit the place of this document in the archive.',
  41: 'This is not the archive’s text of this document: it leads to another root. It was changed, or is that of'
    + ' another document.',
  42: 'The file of the growth does not begin at your root.',
  43: 'The file of the growth does not lead to the root that is offered.',
  44: 'The archive had {n} documents, and would now have {m}. Documents were withdrawn.',
  45: 'The digests in the file of the growth do not fit the numbers of documents.',
  46: 'The file of the growth leads to other texts than those under your root.',
  47: 'The file of the growth leads to other texts than those under the root that is offered.',
};
// Which of these has numbers that count from 0.
const COUNTED = new Set([20, 21, 22, 23, 24, 25, 30, 31, 32]);
const COUNTING =
  'Archives, rows, entries and documents count from 0, and so do query words, in the order of their bytes, once each.';
const NAMES = { best: 'proof', all: 'proof', text: 'file of the text', growth: 'file of the growth' };

/**
 * One sentence for a verdict that is not green. `what` was checked: `best`, `all`, `text` or `growth`.
 * @param {import('./check.mjs').Verdict & { shard?: number }} verdict with the number of the archive, if it is of the
 *   proof of one of several
 * @param {string} [what]
 * @returns {string}
 */
export function reasonOf({ reason, first, second, shard }, what = 'best') {
  const said = REASONS[reason] ?? 'The check gave a reason that this page does not know.';
  const meant = { n: first, m: second, it: NAMES[what] }, isCounted = COUNTED.has(reason) || shard !== undefined;
  return (shard === undefined ? '' : `Archive ${shard}: `) + said.replace(/\{(\w+)\}/g, (_, name) => meant[name])
    + (isCounted ? ` ${COUNTING}` : '');
}

const FAULTS = {
  link: 'The host cannot be reached. Look at your connection, and ask again.',
  silent: 'Nothing came for 30 seconds. Ask again.',
  missing: 'This host does not have it. Ask another one.',
  busy: 'The host has too much to do. Ask again in a minute.',
  cut: 'The host stopped in the middle. Ask again.',
  long: 'The host sends more than this may have. It was not read. Ask another host.',
  wrong: 'The host does not have the archive’s own bytes. Ask another host, and tell the archive’s owner.',
  input: 'This question cannot be answered.',
  memory: 'This browser ran out of memory. Close other pages, and ask again.',
  stopped: 'The check stopped before it had a verdict. Load the page again, and ask again.',
};

/** @type {[RegExp, string][]} what some faults mean, by word and line */
const PLACES = [
  [/^input .* (\d+) documents to look into, of at most (\d+)$/,
    'To show that no document is missing, $1 documents have to be looked into, and this page does so for at most $2. '
      + 'Add a rarer word.'],
  [/^missing .*head.*/, 'This host has no folder of the archive with this root.'],
  [/^missing .*saved file/, 'The saved file does not have it.'],
  [/^wrong host: archives of another catalog$/,
    'The host’s list of archives is not this catalog’s. Ask another host, and tell the owner.'],
];

/** @type {(fault: { word: string, line: string }) => string} a sentence for a fault */
export function faultWords({ word, line }) {
  const all = `${word} ${line}`, place = PLACES.find(([sign]) => sign.test(all));
  const [, shard] = /^host: shard (\d+): /.exec(line) ?? [];
  return (shard ? `Archive ${shard}: ` : '') + (place ? all.replace(...place) : FAULTS[word] ?? FAULTS.link);
}

/** @param {string} text */
export const capital = text => text.replace(/^./, it => it.toUpperCase());

/** @param {number} n */
export const number = n => n.toLocaleString('en-US');

/** @param {number} n */
export const documents = n => n === 1 ? '1 document' : `${number(n)} documents`;

/** What to do about a refusal: of what a host sent, or of a saved proof. */
export const afterRefusal = from => from
  ? 'Get the file again from whoever sent it to you, and compare the root with theirs.'
  : 'Ask again. If it is refused again, ask another host, and tell the archive’s owner.';

/**
 * The line above an accepted answer, which says what is proved.
 * @param {import('./asking.mjs').Answer} answer
 */
export function headingOf({ way, docs: { length: found }, found: together, r, all, words, shards }) {
  const of = `of ${documents(all)}${shards.length > 1 ? ` in ${number(shards.length)} archives` : ''}`;
  const them = words.all.length === 1 ? 'this word' : `${way === 'all' ? 'every one' : 'any'} of these words`;
  if (found === 0) return `No document has ${them}`;
  if (way === 'all') {
    const none = together?.docs.length === 0 ? ', none with them together' : '';
    return (found === 1 ? `Checked: 1 ${of} has ${them}, and no other`
                        : `Checked: ${number(found)} ${of} have ${them}, and no others`) + none;
  }
  if (found < r)
    return found === 1 ? `Checked: the only one ${of} that has ${them}`
                       : `Checked: all ${number(found)} that have ${them}, ${of}`;
  return `Checked: the best ${found === 1 ? 'one' : number(found)} ${of}, and none left out`;
}

/**
 * What was checked of an accepted answer, in full.
 * @param {import('./asking.mjs').Answer} answer
 */
export function checkedOf({ way, docs: { length: found }, r, root, shards }) {
  const what = shards.length > 1 ? 'proofs show of the archives' : 'proof shows of the archive';
  const hashed = `This page rebuilt the hashes of all that the ${what}, up to the root ${root}, and checked that`;
  if (way === 'all')
    return `${hashed} ${found ? 'these documents, and no others, have' : 'no document has'} every word of the query.`;
  if (found === 0) return `${hashed} no document scores above 0 for this query.`;
  const [best, last] = found === 1 ? ['this is the best document', 'it']
    : [`these are the best ${number(found)} documents, best first`, 'the last one'];
  return `${hashed} ${best}${found < r ? ', and that no other document scores above 0'
    : `: no other document can score higher than ${last}`}.`;
}

/**
 * What a growth says of the texts that were there before, of the last archive if it has grown.
 * @param {import('./roots.mjs').Relation} grown
 */
export function grownOf({ archives: [old] = [1], before }) {
  if (old > 1 || before === undefined) return 'All texts are the same under both roots.';
  return before === 1 ? 'Text 0 is the same under both roots.'
    : `Texts 0 to ${number(before - 1)} are the same under both roots.`;
}

/** @param {import('./roots.mjs').Relation} grown */
export function grewOf({ archives: [old, now] = [1, 1], before, after }) {
  const it = now === 1 ? 'the archive' : `archive ${old - 1}`, said = [];
  if (before !== undefined && before === after) said.push(`${it} has another root, and the same ${documents(before)}`);
  else if (before !== undefined) said.push(`${it} grew from ${number(before)} to ${documents(after ?? 0)}`);
  if (now > old) said.push(`archives were added, ${number(old)} before and now ${number(now)}`);
  return capital(`${said.join('; ')}; nothing was withdrawn`);
}

/** @param {{ lower: bigint, upper: bigint }} row */
export const scoreOf = ({ lower, upper }) => lower === upper ? `score ${lower}` : `score between ${lower} and ${upper}`;

/** Browsers give the time in steps, some of 1 ms. */
export const duration = ms => ms < 1.5 ? '1 ms or less' : `${Math.round(ms)} ms`;

/** The day of a moment, as 2031-05-31. */
export const dayOf = moment => moment.toISOString().slice(0, 10);

/** A text that may run from right to left, inside a sentence. */
export const quoted = text => `“\u2068${text}\u2069”`;

/** @type {(words: string[]) => string} words in a list, each quoted */
export const listed = words => words.map(quoted).join(', ');
