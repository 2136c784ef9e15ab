// Plays the vectors of the checks and of words with page.wasm: in a page that web/test serves, or in Node:
// node web/try/play.mjs web/out
import { bytesOfHex as bytesOf, hex, joined } from '../bytes.mjs';
import { checker } from '../check.mjs';

const FILES = ['proofs', 'changed', 'made', 'inputs', 'large', 'both', 'catalogs', 'texts', 'growths', 'words'];

function changed(proof, changes) {
  for (const [start, end, digits] of changes) {
    proof = joined([proof.subarray(0, start), bytesOf(digits), proof.subarray(end)]);
  }
  return proof;
}

// The bytes of parts, as vectors/README.md says.
const spelt = parts => joined(parts.map(([digits, times = 1, first]) => {
  const piece = bytesOf(digits), front = first === undefined ? 0 : 4, size = front + piece.length;
  const out = new Uint8Array(size * times);
  for (let i = 0; i < times; i++) {
    if (front) new DataView(out.buffer).setUint32(i * size, first + i);
    out.set(piece, i * size + front);
  }
  return out;
}));

/**
 * Each vector for proofs: file, what it is about, the proof, root, query, r, and the status and lines that are wanted.
 */
function* proofs(files) {
  const whole = (file, about, it) => ({ file, about, ...it, proof: bytesOf(it.proof) });
  for (const [about, it] of Object.entries(files.proofs)) yield whole('proofs', about, it);
  for (const it of files.changed) {
    const of = files.proofs[it.of];
    const about = `${it.of}: ${it.about}`, proof = changed(bytesOf(of.proof), it.changes);
    yield { ...of, ...it, file: 'changed', about, proof };
  }
  for (const it of files.made) yield whole('made', it.about, it);
  for (const it of files.inputs) {
    const made = { proof: new Uint8Array(it.zeros), root: '00'.repeat(32), query: it.text.repeat(it.times) };
    yield { ...it, ...made, file: 'inputs', about: it.lines[0] };
  }
  for (const it of files.large) yield { ...it, file: 'large', proof: spelt(it.proof) };
}

/** Each vector of a check: file, what it is about, what is wanted, and what the call answers. */
function* cases(it, files) {
  for (const { file, about, proof, root, query, r, status, lines } of proofs(files)) {
    yield { file, about, status, lines, bytes: proof.length, got: it.check(proof, bytesOf(root), query, r) };
  }
  for (const { about, proof, root, query, status, lines } of files.both) {
    yield { file: 'both', about, status, lines, got: it.both(spelt(proof), bytesOf(root), query) };
  }
  for (const { about, proof, root, roots, query, r, status, lines } of files.catalogs) {
    yield { file: 'catalogs', about, status, lines, got: it.catalog(bytesOf(proof), bytesOf(root), query, r) };
    if (roots) yield { file: 'catalogs', about, status: 0, lines: [root], got: it.catalogRoot(roots.map(bytesOf)) };
  }
  for (const { about, file, root, document: doc, status, text, lines } of files.texts) {
    const got = it.text(spelt(file), bytesOf(root), doc);
    const wanted = status === 0 ? [...spelt(text)] : lines;
    yield { file: 'texts', about, status, lines: wanted, got, shown: got.text && [...got.text] };
  }
  for (const { about, file, old_root: old, new_root: now, status, lines } of files.growths) {
    yield { file: 'growths', about, status, lines, got: it.growth(spelt(file), bytesOf(old), bytesOf(now)) };
  }
  for (const { text, terms } of files.words.filter(isQuery)) {
    const got = it.query(text), shown = got.terms?.map(({ term, weight }) => [new TextDecoder().decode(term), weight]);
    yield { file: 'words', about: text, status: 0, lines: terms, got, shown };
  }
}

/** The lines that the command of a check prints for its verdict; those of `fetch` are the text, and not among them. */
function linesOf({ status, line, rows = [], docs = [], grown, root }) {
  if (status !== 0) return [line];
  if (grown) return [`grown ${grown.old} ${grown.new}`];
  if (root) return [hex(root)];
  return [...rows.map((row, i) => [i + 1, ...Object.values(row)].join(' ')), ...docs.map(String)];
}

// A text with some terms, and no more than a query may have.
const isQuery = ({ terms }) =>
  terms.length > 0 && terms.length <= 32 && terms.reduce((sum, [, count]) => sum + count, 0) <= 255;

/** Plays all vectors. Returns the numbers that passed, by file, and what failed. */
export async function play(module, files) {
  const it = checker(module), passed = {}, failed = [], times = [];
  for (const { file, about, status, lines, bytes, got, shown = linesOf(got) } of cases(it, files)) {
    if (got.status === status && same(shown, lines)) passed[file] = (passed[file] ?? 0) + 1;
    else failed.push(`${file}: ${about}: status ${got.status} ${linesOf(got)[0]}`);
    if (bytes >= 100000) times.push({ about, bytes, ms: got.ms });
  }
  return { passed, failed, times };
}

const same = (a, b) => JSON.stringify([...a]) === JSON.stringify([...b]);

async function inPage() {
  const json = async name => [name, await (await fetch(`/vectors/${name}.json`)).json()];
  const module = await WebAssembly.compile(await (await fetch('/page.wasm')).arrayBuffer());
  return play(module, Object.fromEntries(await Promise.all(FILES.map(json))));
}

async function inNode(folder) {
  const { readFileSync } = await import('node:fs');
  const module = await WebAssembly.compile(readFileSync(`${folder}/page.wasm`));
  const read = name => [name, JSON.parse(readFileSync(new URL(`../../vectors/${name}.json`, import.meta.url), 'utf8'))];
  return play(module, Object.fromEntries(FILES.map(read)));
}

if (typeof document === 'undefined') console.log(JSON.stringify(await inNode(process.argv[2])));
else document.title = JSON.stringify(await inPage().catch(fault => ({ fault: String(fault) })));
