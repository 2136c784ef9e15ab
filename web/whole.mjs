// A whole text, open at its first hit. Not proved.

import { $, element, marked, show, write } from './view.mjs';
import { number } from './sentences.mjs';

const MARKED = 500; // hits that are marked at the same time
const CHUNK = 8000; // UTF-16 units

/**
 * @typedef {{ from: number, to: number, place: HTMLElement }} Chunk a part of the text, which the browser lays out when
 * it is in sight
 */

/** The text that is open, if one is. */
export class Whole {
  #current = 0; #first = -1;
  /** @type {{ text: string, hits: [number, number][], count: number }} */
  #open = { text: '', hits: [], count: 0 };
  /** @type {Chunk[]} */
  #chunks = [];

  /**
   * Shows a text that the check accepted.
   * @param {{ title: string, text: string, hits: [number, number][], count: number, isLaidOut: boolean }} whole
   */
  open(whole) {
    const { title, text, hits, isLaidOut } = whole;
    this.#open = whole;
    this.#first = -1;
    this.#chunks = chunksOf(text);
    write('whole-title', title);
    $('whole-text').classList.toggle('laid-out', isLaidOut);
    const empty = element('em', 'This document is empty.');
    $('whole-text').replaceChildren(...(text ? this.#chunks.map(({ place }) => place) : [empty]));
    show('earlier later hit', hits.length > 0);
    show('whole', true);
    $('whole').scrollIntoView({ block: 'start' });
    $('whole-title').focus({ preventScroll: true });
    this.#show(0);
  }

  close() {
    this.#chunks = [];
    $('whole-text').replaceChildren();
    show('whole', false);
  }

  /** @param {number} by */
  turn(by) {
    const { length } = this.#open.hits;
    this.#show((this.#current + by + length) % length);
  }

  /** Marks the hits from this one on, and those of no other. */
  #mark(first) {
    const { text, hits } = this.#open, marks = hits.slice(first, first + MARKED);
    for (const { from, to, place } of this.#chunks) {
      const own = marks.filter(it => it[0] < to && it[1] > from);
      if (own.length === 0 && !place.firstElementChild) continue;
      const inside = own.map(it => [Math.max(it[0], from) - from, Math.min(it[1], to) - from]);
      place.replaceChildren(...marked(text.slice(from, to), inside));
    }
    this.#first = first;
  }

  /** Brings the hit with this number into sight. */
  #show(current) {
    const first = current - current % MARKED, box = $('whole-text');
    if (first !== this.#first) this.#mark(first);
    this.#current = current;
    box.querySelectorAll('.current').forEach(it => it.classList.remove('current'));
    const mark = box.querySelectorAll('mark')[current - first];
    if (!mark) return;
    mark.classList.add('current');
    mark.scrollIntoView({ block: 'nearest', inline: 'nearest' });
    const { hits: { length }, count } = this.#open, among = count > length ? ` of the first ${number(length)},` : '';
    write('hit', `Hit ${number(current + 1)}${among} of ${number(count)}`);
  }
}

/** @type {(text: string) => Chunk[]} cut between lines, or between words in a line that is too long */
function chunksOf(text) {
  const chunks = [];
  for (let from = 0, to; from < text.length; from = to) {
    to = from + CHUNK < text.length ? cutIn(text, from) : text.length;
    chunks.push({ from, to, place: element('div', text.slice(from, to), { className: 'chunk', dir: 'auto' }) });
  }
  return chunks;
}

function cutIn(text, from) {
  const part = text.slice(from, from + CHUNK), line = part.lastIndexOf('\n') + 1, word = part.lastIndexOf(' ') + 1;
  return from + (line || word || CHUNK);
}
