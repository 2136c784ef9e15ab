// The page's elements. Not proved.

/**
 * @param {string} id
 * @returns {any} the element of this name, whose kind the page knows
 */
export const $ = id => document.getElementById(id);

/** @type {(ids: string, isShown: boolean) => void} shows or hides the elements of these names, with spaces between */
export const show = (ids, isShown) => ids.split(' ').forEach(id => { $(id).hidden = !isShown; });

/** @type {(id: string, text: string) => void} */
export const write = (id, text) => { $(id).textContent = text; };

/**
 * @param {string} id
 * @param {string} event
 * @param {(event: any) => void} act
 */
export const on = (id, event, act) => $(id).addEventListener(event, act);

/**
 * @param {string} name
 * @param {string | (string | Node)[]} [inside]
 * @param {object} [more]
 */
export function element(name, inside = '', more = {}) {
  const it = Object.assign(document.createElement(name), more);
  it.append(...(typeof inside === 'string' ? [inside] : inside));
  return it;
}

/** What a person is doing or has to do. */
export const say = text => { write('state', text); write('heard', ''); };

/** What is heard of a result that is in sight. */
export const announce = text => { write('state', ''); write('heard', text); };

/** Shows work that takes time. */
export function progress({ bytes, of, requests, done }) {
  if (of) Object.assign($('bar'), { max: of, value: done });
  else $('bar').removeAttribute('value');
  if (bytes !== undefined) write('came', `${sizeOf(bytes)}${requests ? `, ${requests} requests` : ''}`);
}

/** @param {number} n of bytes */
export const sizeOf = n => n < 1000 ? `${n} bytes`
  : n < 1000000 ? `${(n / 1000).toFixed(1)} KB`
                : `${(n / 1000000).toFixed(1)} MB`;

/** A text in parts, of which those between the marks are marked. Marks follow one another. */
export function marked(text, marks) {
  const parts = [];
  let at = 0;
  for (const [from, to] of marks) {
    parts.push(text.slice(at, from), element('mark', text.slice(from, to)));
    at = to;
  }
  return [...parts, text.slice(at)].filter(part => part !== '');
}
