// The worker of the page, of which there are two, so that the page stays quick. One checks, and reads texts by the
// words of the proved module; the other one assembles answers from the folders of archives. The first message is
// { start }; each other one is { id, call, words } or { stop: id }. The page's side is in calls.mjs. Not proved.

import { Assembler } from './assembler.mjs';
import { StoredCache } from './cache.mjs';
import { checker } from './check.mjs';
import { Fault } from './fault.mjs';
import { HttpHost } from './http.mjs';
import { Reading } from './reading.mjs';

const QUIET_MS = 50; // between two reports of progress

/** @typedef {(call: string, words: any, how: import('./question.mjs').How) => Promise<any>} Answer */

/** @param {WebAssembly.Module} module */
function callsOf(module) {
  const checks = checker(module), reading = new Reading(checks.query);
  // Of a text: nothing is read of one that the check refuses.
  const ofText = call => (file, root, doc, ...words) => {
    const { text, ...got } = checks.text(file, root, doc);
    return { got, read: text && reading[call](new TextDecoder().decode(text), ...words) };
  };
  const ofTexts = Object.fromEntries(['excerpt', 'whole', 'holds'].map(call => [call, ofText(call)]));
  return { ...checks, ...ofTexts, sequence: text => reading.sequence(text) };
}

/** @type {(module: WebAssembly.Module) => Answer} checks one call after another */
function checking(module) {
  /** @type {any} */
  let calls;
  return async (call, words) => {
    try {
      calls ??= callsOf(module);
      return calls[call](...words);
    } catch (fault) {
      calls = undefined; // its memory is in no known state
      throw fault;
    }
  };
}

/** @type {(bases: string[]) => Answer} assembles answers of the hosts at these addresses */
function assembling(bases) {
  const hosts = bases.map(base => new HttpHost(base));
  const assembler = StoredCache.open().then(cache => new Assembler(hosts, { cache }));
  return async (call, words, how) => (await assembler)[call](words, how);
}

/** @type {(id: number) => (progress: object) => void} shows progress now and then */
function reporting(id) {
  let next = 0;
  return progress => {
    if (performance.now() < next) return;
    next = performance.now() + QUIET_MS;
    postMessage({ id, progress });
  };
}

/** @param {any} fault */
function plain(fault) {
  if (fault instanceof Fault) return { word: fault.word, line: fault.line };
  return fault instanceof RangeError ? { word: 'memory', line: 'memory' } : { word: 'stopped', line: `${fault?.name}` };
}

/** @type {Answer} */
let answer;
/** @type {Map<number, AbortController>} */
const stoppers = new Map();

async function answered({ id, call, words }) {
  const stopper = new AbortController();
  stoppers.set(id, stopper);
  try {
    const got = await answer(call, words, { signal: stopper.signal, progress: reporting(id) });
    const given = [got].flat().filter(it => it instanceof Uint8Array).map(({ buffer }) => buffer);
    postMessage({ id, got }, /** @type {any} */ (given));
  } catch (fault) {
    postMessage({ id, fault: plain(fault) });
  } finally {
    stoppers.delete(id);
  }
}

addEventListener('message', ({ data: { start, stop, ...call } }) => {
  if (start) answer = start.module ? checking(start.module) : assembling(start.bases);
  else if (stop !== undefined) stoppers.get(stop)?.abort();
  else answered(call);
});
