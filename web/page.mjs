// The page: takes a root and a question, asks, has the reply checked, and says what came of it. Not proved.

import { Asking } from './asking.mjs';
import { Calls, workersOf } from './calls.mjs';
import { faultOf } from './fault.mjs';
import { documentOf, fits, isCatalog, isName } from './places.mjs';
import { badSign, readQuery } from './query.mjs';
import { Results } from './results.mjs';
import { COMPARE, keep, kept, leftOn, originOf, relation } from './roots.mjs';
import { citeOf, fileNameOf, linkOf, opened, saved } from './saved.mjs';
import {
  afterRefusal, capital, checkedOf, dayOf, documents, duration, faultWords, grewOf, grownOf, headingOf,
  listed, number, quoted, reasonOf,
} from './sentences.mjs';
import { $, announce, on, progress, say, show, sizeOf, write } from './view.mjs';
import { Whole } from './whole.mjs';

const A_PAGE = 10, MOST_ROWS = 1000;

/**
 * @typedef {import('./asking.mjs').Answer} Answer
 * @typedef {import('./asking.mjs').Question} Question
 *
 * @typedef {object} State all that changes on this page, beside what it shows
 * @property {string} root under which answers are checked, or what else the field has
 * @property {string} how the root came: page, kept, link, typed, file or grown; or empty
 * @property {{ root: string, how: string }} [offer] of another root, and how it came
 * @property {string} name of the archive, by its owner's word
 * @property {boolean} titles whether first lines are titles, by the owner's word
 * @property {Asking} [asking] once the page is ready
 * @property {AbortController} [stopper] of what is being done
 * @property {Answer} [answer] whatever the verdict is
 * @property {number} shown how many results
 * @property {string} [doc] whose text is open, or to be opened
 * @property {string} [host] in the address as the page was opened
 */

/** @type {State} */
const state = { root: '', how: '', name: '', titles: false, shown: A_PAGE };
/** @param {string} [doc] that is open */
const linkOfAnswer = doc => linkOf(answered(), { host: state.host, doc });
const results = new Results(linkOfAnswer);
const whole = new Whole(), NAMELESS = $('name').textContent, ROOTLESS = $('origin').textContent;

const linked = () => new URLSearchParams(location.hash.slice(1));
const meta = which => /** @type {HTMLMetaElement} */ (document.querySelector(`meta[${which}]`)).content;
const builtIn = name => meta(`name=archive-${name}`);
const isRoot = text => /^[0-9a-f]{64}$/.test(text);
const asking = () => /** @type {Asking} */ (state.asking);
const answered = () => /** @type {Answer} */ (state.answer);

// ---- the root

/** @type {(why: string) => void} ends what is being done */
const stop = why => state.stopper?.abort(new DOMException(why, 'AbortError'));

/** Takes another root: what was asked or shown under the one before goes. */
function useRoot(root, how) {
  if (root === state.root && how === state.how) return;
  if (isRoot(state.root)) stop('Your root has changed, so the question was stopped.');
  Object.assign(state, { root, how, name: builtIn('name'), titles: false });
  clear();
  if (how !== 'typed') $('root').value = root;
  offerNothing();
  rootShown();
}

function rootShown() {
  const { root, how, name } = state, good = isRoot(root);
  $('root').ariaInvalid = null;
  write('origin', root ? originOf(root, how) : ROOTLESS);
  write('root-short', good ? `${root.slice(0, 8)}…` : '');
  show('keep', good && root !== kept().root);
  write('name', name || NAMELESS);
  show('name-hint', name !== '');
}

const rootTyped = () => useRoot($('root').value.replace(/\s/g, '').toLowerCase(), 'typed');

function keepRoot() {
  if (!keep(state.root, false)) return say('This browser keeps nothing for this page.');
  rootShown();
  say('The root is kept.');
}

/**
 * The address gets the root, and the question if there is one.
 * @param {Question} [question]
 */
function addressed(question) {
  const hash = linkOf(question ?? { root: state.root }, { host: state.host });
  if (hash !== location.hash) history.pushState(null, '', hash);
}

// ---- another root

/** Asks for the newest root, and says what it is to the person's. It changes nothing by itself. */
async function lookForNewer() {
  const { root } = state;
  if (!isRoot(root) || !state.asking || state.offer) return;
  asking().shards(root).catch(() => {}); // so that they are there when the first question comes
  const left = kept().before.at(-1)?.root;
  const offered = await asking().newest(root) ?? (left && await asking().newest(left));
  if (!offered || root !== state.root) return;
  Object.assign(state, { name: builtIn('name') || offered.name, titles: offered.titles });
  rootShown();
  const found = await relation(asking(), root, offered.root).catch(() => undefined);
  if (!found || found.kind === 'same' || root !== state.root || state.offer) return;
  offer(offered.root, found.kind, NEWER[found.kind](found), found.got?.line);
}

const STAY = 'Stay with your root.', IF_PUBLISHED = 'If the owner published the other one, ask the owner';
const LINKED = ['The link has another root than yours', `Your root stays until you say otherwise. ${COMPARE}`];
/** @type {Record<string, (found: any) => string[]>} */
const NEWER = {
  grown: found =>
    [grewOf(found), `${grownOf(found)}\nThis does not show whether what was added is the owner’s. ${COMPARE}`],
  older: ({ day }) => ['The host is behind',
    `It offers a root that you left on ${day}, when the archive had grown.\n${STAY} Ask again later, or another host.`],
  other: () => ['The host offers another archive',
    `Nothing shows that it grew from yours: texts may have been withdrawn or changed.\n${STAY} ${IF_PUBLISHED} why.`],
  refused: ({ got }) => ['The growth that the host offers is refused',
    `${reasonOf(got, 'growth')}\n${STAY} ${IF_PUBLISHED} for a growth that leads there.`],
};

/**
 * Says what another root is. The person may take one that the archive grew to, or that of a link.
 * @type {(root: string, how: string, words: string[], line?: string) => void}
 */
function offer(root, how, [heading, said], line = '') {
  const kind = { grown: 'good', link: '' }[how] ?? 'bad', isFree = kind !== 'bad';
  if (isFree) state.offer = { root, how };
  judgedIn('offer', 'offer-verdict', kind, heading);
  write('offer-said', said);
  lineIn('offer-line', line);
  write('offer-root', root);
  show('offer-tools', isFree);
  write('heard', `${heading}. ${said}`);
}

function offerNothing() {
  state.offer = undefined;
  show('offer', false);
}

/** Goes on with the root that counts after an offer. */
function goOn(said) {
  offerNothing();
  if (linked().get('root') !== state.root) addressed();
  say(said);
  $('query').focus();
}

function take() {
  const { root, how } = /** @type {{ root: string, how: string }} */ (state.offer);
  if (how === 'grown' && state.root === kept().root) keep(root, true);
  useRoot(root, how);
  goOn('Your root is now this one.');
  lookForNewer();
}

// ---- what the page shows

function clear() {
  Object.assign(state, { answer: undefined, shown: A_PAGE });
  results.clear();
  whole.close();
  show('answer how lied copied-place more', false);
  ['done', 'cited'].forEach(id => write(id, ''));
}

function busy(isSo) {
  ['go', 'open'].forEach(id => { $(id).disabled = isSo || !state.asking; });
  $('more').disabled = isSo;
  show('stop', isSo);
  $('bar').classList.toggle('idle', !isSo);
  if (!isSo) { $('bar').value = 0; write('came', ''); }
}

function invalid(id, text) {
  $(id).ariaInvalid = 'true';
  if (id === 'root') $('root-place').open = true;
  say(text);
  $(id).focus();
}

/** The check's line, if there is one. */
const lineIn = (id, line = '') => write(id, line && `The check’s line: ${line}`);

/** Shows this place, good, bad or neither, with its heading. */
function judgedIn(place, id, kind, heading) {
  $(place).className = kind;
  write(id, ({ good: '✓ ', bad: '✗ ' }[kind] ?? '') + heading);
  show(place, true);
}

/** What came of a question. Only a line of the proved module is called the check's. */
function verdict(isGood, heading, said, line = '') {
  judgedIn('answer', 'verdict', isGood ? 'good' : 'bad', heading);
  write('said', said);
  lineIn('line', line);
  show('other', false);
  announce(`${heading}. ${said}`);
}

function failed(fault) {
  const why = faultOf(fault), heading = ['memory', 'stopped'].includes(why.word) ? 'Not checked' : 'No answer';
  verdict(false, heading, faultWords(why));
  write('line', `What the page saw: ${why.line}`);
}

/** @param {Answer} answer */
function refused({ got, way, from, root }) {
  if (got.status !== 1) return verdict(false, 'Not checked', reasonOf(got, way), got.line);
  verdict(false, 'Refused: do not use this answer', `${reasonOf(got, way)} ${afterRefusal(from)}`, got.line);
  show('other', from !== undefined && from.root !== root);
}

/** @param {Answer} answer */
function notesOf({ words, having, passed, phrases, found, docs }) {
  const absent = words.all.filter((_, i) => having[i] === 0), notes = [];
  if (absent.length && words.all.length > 1) notes.push(`No document has ${listed(absent)}.`);
  if (phrases.length > words.together.length) passed = [...passed, '“ ”'];
  if (passed.length)
    notes.push(`Passed over: ${listed(passed)}. ${passed.length === 1 ? 'It means' : 'They mean'} nothing here.`);
  if (!found) return notes;
  const them = listed(words.together.map(it => it.join(' '))), looked = found.read - found.failed;
  if (docs.length) {
    const count = number(found.docs.length);
    notes.push(`This page read ${number(looked)} of their texts, each checked, and found ${them} in ${count}.`);
  }
  if (found.failed) notes.push(`${number(found.failed)} texts did not come or were refused, and may have it too.`);
  if (found.stopped) notes.push(`${found.stopped} Later documents may have it too. Add a rarer word.`);
  return notes;
}

/** @param {Answer} answer */
function accepted(answer) {
  verdict(true, headingOf(answer), notesOf(answer).join('\n'));
  write('checked', checkedOf(answer));
  write('facts', factsOf(answer));
  show('how', true);
  listShown(answer);
  if (state.doc !== undefined) openText(state.doc);
}

/** @param {Answer} answer */
function factsOf({ query, proofs, got, from, ms, words }) {
  const size = proofs.reduce((sum, { length }) => sum + length, 0);
  const came = from
    ? `From the file ${quoted(from.name)}, which says that it was saved on ${quoted(from.date.slice(0, 10))}.`
    : `The proof came in ${duration(ms)}.`;
  return `Query ${quoted(query)}. Words searched for: ${listed(words.all)}. ${came} It has `
    + `${sizeOf(size)} and was checked in ${duration(got.ms)}.`;
}

/** @param {Answer} answer */
const resultsOf = ({ found, docs }) => found ? found.docs : docs;

/** @param {Answer} answer */
function listShown(answer) {
  results.show(asking(), answer, resultsOf(answer).slice(0, state.shown));
  moreShown(answer);
}

/** @param {Answer} answer */
function moreShown(answer) {
  const { way, r, docs, from } = answer, canAsk = way === 'best' && docs.length === r && r < MOST_ROWS && !from;
  show('more', canAsk || resultsOf(answer).length > state.shown);
}

// ---- one question

function fillIn(query, way) {
  $('query').value = query;
  $(way === 'all' ? 'all' : 'best').checked = true;
}

/** The question of the form, or undefined after saying what is wrong with it. */
function question() {
  ['root', 'query'].forEach(id => { $(id).ariaInvalid = null; });
  const typed = $('query').value, bad = badSign(typed), { sent, phrases, passed } = readQuery(typed);
  if (!isRoot(state.root)) {
    return invalid('root', `The root has 64 digits from 0 to 9 and a to f. Here are ${state.root.length} characters.`);
  }
  if (bad) return invalid('query', `The query has the sign ${bad}, which no command can carry. Take it out.`);
  const way = $('all').checked ? 'all' : 'best';
  return /** @type {Question} */ ({ way, root: state.root, typed, query: sent, r: A_PAGE, phrases, passed });
}

/**
 * @param {Question} asked
 * @param {AbortSignal} signal
 * @param {Map<string, Uint8Array>} [texts] that are there already
 */
const answerTo = (asked, signal, texts = new Map()) => judged(asked, signal, async words => {
  const way = words.together.length ? 'all' : asked.way, question = { ...asked, way, r: way === 'all' ? 0 : asked.r };
  say('Searching …');
  return { ...await asking().answer(question, words, { signal, progress }), texts };
});

/**
 * Shows the answer to a question that breaks no limit.
 * @param {Question & { from?: object }} asked
 * @param {AbortSignal} signal
 * @param {(words: import('./asking.mjs').Words) => Promise<Answer>} make
 */
async function judged(asked, signal, make) {
  const read = await asking().words(asked, signal), limit = read.got;
  if (limit.status !== 0)
    return verdict(false, asked.from ? 'Not checked' : 'Not asked', reasonOf(limit), limit.line);
  const answer = await make(read), { got, words, docs, from } = answer;
  if (got.status === 0 && words.together.length && !from) {
    say(`Reading the texts of ${documents(docs.length)} …`);
    answer.found = await asking().find(answer, { signal, progress });
  }
  signal.throwIfAborted();
  answer.titles ||= state.titles;
  state.answer = answer;
  if (got.status === 0) accepted(answer);
  else refused(answer);
}

/** Does something that takes time, with a way to stop it. */
async function working(act) {
  if (!state.asking || !$('stop').hidden) return say('Wait until the page is ready, and try again.');
  const stopper = new AbortController();
  state.stopper = stopper;
  busy(true);
  try {
    await act(stopper.signal);
  } catch (fault) {
    if (stopper.signal.aborted) say(stopper.signal.reason.message);
    else await failedToAnswer(fault);
  } finally {
    busy(false);
  }
}

/** A host without the folder of this root may have that of a newer one. */
async function failedToAnswer(fault) {
  failed(fault);
  const { word, line } = faultOf(fault);
  if (word !== 'missing' || !line.includes('head')) return;
  await lookForNewer();
  if (!$('offer').hidden) write('said', 'This host has no answers under your root. Above is what it offers.');
}

function submitted(event) {
  event.preventDefault();
  clear();
  const asked = question();
  if (!asked) return;
  state.doc = linked().get('query') === asked.typed ? linkedDoc() : undefined;
  addressed(asked);
  working(signal => answerTo(asked, signal));
}

/** Ten more results: of the best, these are a question of its own. */
function more() {
  const answer = answered(), next = state.shown, focused = () => $('list').querySelectorAll('.open')[next]?.focus();
  state.shown += A_PAGE;
  if (answer.way === 'all' || answer.docs.length > next) { listShown(answer); return focused(); }
  const r = Math.min(state.shown, MOST_ROWS);
  return working(signal => answerTo({ ...answer, r }, signal, answer.texts)).then(focused);
}

// ---- a whole text

const linkedDoc = () => [linked().get('doc') ?? ''].find(isName);

async function openText(doc) {
  const answer = answered(), { signal } = /** @type {AbortController} */ (state.stopper);
  if (!fits(doc, answer)) return;
  state.doc = doc;
  try {
    const { got, read } = await asking().read(answer, 'whole', doc, signal);
    if (state.answer !== answer || state.doc !== doc) return;
    if (!read) return verdict(false, 'This text is refused', reasonOf(got, 'text'), got.line);
    show('answer list more how', false);
    $('back').href = linkOfAnswer();
    whole.open(read);
    const length = number(read.text.length);
    write('whole-said', `${capital(documentOf(doc))}, all of its ${length} characters. ✓ text checked.`);
    write('cited', '');
  } catch (fault) {
    if (!signal.aborted) failed(fault);
  }
}

function closeText() {
  const { doc, answer } = state;
  state.doc = undefined;
  whole.close();
  if (!answer) return;
  show('answer list how', true);
  moreShown(answer);
  $('list').querySelector(`[data-doc="${doc}"] .open`)?.focus();
}

// ---- evidence

async function save() {
  const answer = answered();
  write('done', 'Getting the texts on this page …');
  await results.whole();
  if (answer !== state.answer) return;
  const now = new Date(), name = fileNameOf(answer, dayOf(now)), count = answer.texts.size;
  const place = URL.createObjectURL(saved(answer, now));
  Object.assign(document.createElement('a'), { href: place, download: name }).click();
  setTimeout(() => URL.revokeObjectURL(place), 60000);
  write('done', `Saved as ${name}, with the texts of ${documents(count)}.`);
  $('done').scrollIntoView({ block: 'nearest' });
}

/** @param {FileList} files */
async function openFile([it]) {
  if (it) await working(async signal => {
    clear();
    const file = await opened(it);
    if (!file) {
      return verdict(false, 'Not a saved proof',
        'This file is none that the page saved, or it is damaged. Get it again from whoever sent it to you.');
    }
    if (!isRoot(state.root)) useRoot(file.root, 'file');
    await judgeFile(file, signal);
  });
}

async function judgeFile(file, signal) {
  const root = leftOn(file.root) ? file.root : state.root;
  const asked = { ...file, from: file, root, shards: isCatalog(file) ? file.shards : [root] };
  fillIn(file.query, file.way);
  await judged(asked, signal, words => asking().judged({ ...asked, words, ms: 0 }, signal));
}

function checkUnderOther() {
  const from = /** @type {import('./asking.mjs').Saved} */ (answered().from);
  useRoot(from.root, 'file');
  working(signal => judgeFile(from, signal));
}

async function copy(text, place, said) {
  try {
    await navigator.clipboard.writeText(text);
    show('copied-place', false);
    write(place, said);
  } catch {
    $('copied').value = text;
    show('copied-place', true);
    $('copied').focus();
    $('copied').select();
  }
}

function copyLink() {
  return copy(location.href.split('#')[0] + linkOfAnswer(), 'done',
    'The link is copied. It has the root, the query and how you asked.');
}

function cite(docs, place) {
  const day = dayOf(new Date()), lines = docs.map(doc => citeOf(answered(), doc, day)).join('\n');
  return copy(lines, place, 'Copied, with document, root and query.');
}

/** Turns one bit of the proof, as a host that lies could have done, and shows what the check says. */
async function lie() {
  const answer = answered(), { proofs, way } = answer;
  const draw = most => Math.floor(Math.random() * most);
  const one = draw(proofs.length), changed = proofs[one].slice(), at = draw(8 * changed.length);
  changed[at >> 3] ^= 1 << (at & 7);
  const got = await asking().checked(answer, proofs.map((it, i) => i === one ? changed : it));
  const isGood = got.status === 0;
  if (answer !== state.answer) return;
  judgedIn('lied', 'lied-verdict', ...isGood ? ['good', 'The changed proof is no lie'] : ['bad', 'The lie is refused']);
  write('lied-what', `The page turned one bit of the proof, as a host that lies could have done: `
    + `bit ${at & 7} of byte ${at >> 3}, of ${changed.length} bytes (both count from 0).`);
  write('lied-said',
    isGood ? 'The check accepts it: its answer is right as well. Documents may tie, for example. Try again.'
           : reasonOf(got, way));
  lineIn('lied-line', got.line);
  $('lied').scrollIntoView({ block: 'center' });
  $('lied-verdict').focus({ preventScroll: true });
}

// ---- the start

// The digests of the files beside this one, which the browser compares as they are fetched.
const pins = JSON.parse($('pins').textContent);

async function pinned(name) {
  try {
    return await (await fetch(name, { integrity: pins[name], credentials: 'omit' })).blob();
  } catch {
    throw new Error(`The file ${name} did not come, or is not the page’s own. Load or get the page again.`);
  }
}

/** The hosts of the link, or the one that this page came from. The page's own policy says which it may ask. */
function hosts() {
  const bases = state.host?.match(/\S+/g) ?? [new URL('.', location.href).href];
  const allowed = [location.origin, .../connect-src 'self'([^;]*)/.exec(meta('http-equiv'))?.[1].split(' ') ?? []];
  const bad = bases.find(base => !/^https?:\/\/[^/]/.test(base) || !allowed.includes(new URL(base).origin));
  if (!bad) return bases;
  throw new Error(`The link names the host ${bad}, which this page may not ask. Take the page that the archive’s owner `
    + 'made for it.');
}

/**
 * What the link has goes into the form. A root that was typed, kept or built in stays until the person takes that of a
 * link.
 */
function readLink() {
  const link = linked(), root = link.get('root') ?? '', query = link.get('query');
  offerNothing();
  if (root && root !== state.root) {
    if (!isRoot(state.root) || state.how === 'link') useRoot(root, 'link');
    else offer(root, 'link', LINKED);
  }
  if (query === null) return 'Ready.';
  if (badSign(query))
    return `The link has a query with the sign ${badSign(query)}, which no command can carry. It was not taken.`;
  fillIn(query, link.get('way'));
  return 'The link has a question. Press Search.';
}

/** Another address: of a text of this answer, of the answer, or of something else. */
function moved() {
  const link = linked(), { answer, root } = state, doc = linkedDoc();
  const isOwn = answer && link.get('root') === root && link.get('query') === answer.typed;
  if (isOwn && doc !== undefined) return openText(doc);
  if (isOwn) return closeText();
  if ((link.get('host') ?? undefined) !== state.host) return location.reload();
  clear();
  say(readLink());
  lookForNewer();
}

async function start() {
  const none = () => { throw new Error('This browser cannot run the check: it needs WebAssembly.'); };
  const own = kept().root, built = builtIn('root');
  state.host = linked().get('host') ?? undefined;
  useRoot(built || own || $('root').value, built ? 'page' : own ? 'kept' : $('root').value ? 'typed' : '');
  rootShown();
  const ready = readLink();
  $('root-place').open = !isRoot(state.root);
  const [module, worker] = await Promise.all(['page.wasm', 'worker.mjs'].map(pinned)), make = workersOf(worker);
  const compiled = await WebAssembly.compile(await module.arrayBuffer()).catch(none);
  const checks = new Calls(make, { module: compiled }, false);
  await checks.call('query', ['a']).catch(none);
  state.asking = new Asking(checks, new Calls(make, { bases: hosts() }, true));
  return ready;
}

on('form', 'submit', submitted);
on('root', 'input', rootTyped);
on('root', 'change', lookForNewer);
on('file', 'change', ({ target }) => openFile(target.files).finally(() => { target.value = ''; }));
Object.entries({
  keep: keepRoot,
  take,
  stay: () => goOn('Your root stays as it is.'),
  stop: () => stop('Stopped.'),
  more,
  earlier: () => whole.turn(-1),
  later: () => whole.turn(1),
  open: () => $('file').click(),
  other: checkUnderOther,
  save: () => save().catch(failed),
  link: copyLink,
  cite: () => cite([state.doc], 'cited'),
  'cite-all': () => cite([...$('list').children].map(it => it.dataset.doc), 'done'),
  lie: () => lie().catch(failed),
}).forEach(([id, act]) => on(id, 'click', act));
addEventListener('dragover', event => event.preventDefault());
addEventListener('drop', event => {
  event.preventDefault();
  openFile(/** @type {DataTransfer} */ (event.dataTransfer).files);
});
addEventListener('hashchange', moved);
busy(true);
show('stop', false);
start().then(ready => {
  say(ready);
  busy(false);
  lookForNewer();
}, fault => {
  say(fault.message);
  show('stop', false);
});
