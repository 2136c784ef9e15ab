// The results of an answer. The text of each is fetched, and shown only if the check accepts it. Not proved.

import { each } from './calls.mjs';
import { faultOf } from './fault.mjs';
import { documentOf } from './places.mjs';
import { capital, faultWords, reasonOf, scoreOf } from './sentences.mjs';
import { $, element, marked } from './view.mjs';

const TEXTS_AT_ONCE = 4, COMING = 'The text is on its way …';

/** @typedef {import('./asking.mjs').Answer} Answer */

/** The list of results. */
export class Results {
  #linkTo;
  /** @type {import('./asking.mjs').Asking | undefined} */
  #asking;
  #end = new AbortController();
  /** @type {Promise<unknown>} */
  #coming = Promise.resolve();

  /** @param {(doc: string) => string} linkTo the address of a text */
  constructor(linkTo) {
    this.#linkTo = linkTo;
  }

  clear() {
    this.#end.abort(new DOMException('another answer', 'AbortError'));
    this.#end = new AbortController();
    $('list').replaceChildren();
  }

  /**
   * Shows these documents of an answer, and fetches their texts.
   * @type {(asking: import('./asking.mjs').Asking, answer: Answer, docs: string[]) => void}
   */
  show(asking, answer, docs) {
    this.clear();
    this.#asking = asking;
    const items = docs.map((doc, i) => this.#item(answer, doc, i));
    $('list').replaceChildren(...items);
    this.#coming = each([...items.keys()], TEXTS_AT_ONCE, i => this.#fill(answer, docs[i], items[i]));
  }

  /** Resolves when no text is on its way any more. */
  whole() { return this.#coming; }

  /**
   * @param {Answer} answer
   * @param {string} doc
   * @param {number} i
   */
  #item({ way, rows }, doc, i) {
    const name = documentOf(doc), link = element('a', capital(name), { href: this.#linkTo(doc), className: 'open' });
    const title = element('h3', [link], { className: 'title', dir: 'auto' });
    const text = element('p', '', { className: 'text', dir: 'auto' });
    const says = way === 'best' ? `${i + 1}. ${capital(name)} · ${scoreOf(rows[i])}` : capital(name);
    const ariaLabel = `From the text of ${name}`;
    const frame = element('div', [title, text], { className: 'frame', role: 'group', ariaLabel });
    const small = element('p', [element('span', says, { className: 'says' })], { className: 'small' });
    const item = element('li', [frame, small]);
    item.dataset.doc = doc;
    awaited(item);
    return item;
  }

  /** @type {(answer: Answer, doc: string, item: HTMLElement) => Promise<void>} */
  async #fill(answer, doc, item) {
    const { signal } = this.#end, asking = /** @type {import('./asking.mjs').Asking} */ (this.#asking);
    try {
      const { got, read } = await asking.read(answer, 'excerpt', doc, signal);
      if (signal.aborted) return;
      if (read) text(item, read);
      else {
        part(item, '.open').replaceWith(part(item, '.open').textContent);
        note(item, `✗ This text is refused: it is not shown. ${reasonOf(got, 'text')} The check’s line: ${got.line}`);
      }
    } catch (fault) {
      if (signal.aborted) return;
      this.#missing(answer, doc, item, faultOf(fault));
    }
    item.ariaBusy = null;
  }

  /** @type {(answer: Answer, doc: string, item: HTMLElement, why: import('./fault.mjs').Fault) => void} */
  #missing(answer, doc, item, why) {
    const again = element('button', 'Ask again for this text', { className: 'small' });
    const noted = note(item, `The text did not come. ${faultWords(why)} What the page saw: ${why.line} `);
    noted.append(again);
    again.addEventListener('click', () => {
      noted.remove();
      awaited(item);
      this.#fill(answer, doc, item);
    });
  }
}

/** @returns {any} */
const part = (item, name) => item.querySelector(name);

/** A text is on its way to this item. */
function awaited(item) {
  part(item, '.text').textContent = COMING;
  item.ariaBusy = 'true';
}

/** Says why there is no text. */
function note(item, says) {
  const it = element('p', says, { className: 'small note' });
  part(item, '.text').textContent = '';
  item.append(it);
  return it;
}

function text(item, { title, text: shown, marks, before, after, length }) {
  part(item, '.open').textContent = title || 'Without a title';
  part(item, '.text').replaceChildren(before ? '… ' : '', ...marked(shown, marks), after ? ' …' : '');
  if (length === 0) part(item, '.text').replaceChildren(element('em', 'This document is empty.'));
  part(item, '.small').append(' · ', element('span', '✓ text checked', { className: 'checked' }));
}
