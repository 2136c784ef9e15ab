// What a person typed: phrases in quotes, signs that mean nothing here, and what cannot be asked.

const QUOTED = /["“”„]([^"“”„]*)["“”„]/g, QUOTE = /["“”„]/;
const OPERATOR = /(^|\s)(AND|OR|NOT)(?=\s|$)/g;
/** Signs by which other searches mean something. */
const SIGNS = [[/\*/, '*'], [/(^|\s)-(?=\S)/, '-'], [/(^|\s)\+(?=\S)/, '+'], [/(^|\s)\S+:(?=\S)/, ':'], [/[()]/, '()']];

/**
 * `sent` is the query that is asked, `phrases` what stands in quotes, and `passed` the signs that mean nothing.
 * @type {(typed: string) => { sent: string, phrases: string[], passed: string[] }}
 */
export function readQuery(typed) {
  const phrases = [...typed.matchAll(QUOTED)].map(it => it[1]), bare = typed.replace(QUOTED, ' ');
  const passed = SIGNS.filter(([sign]) => /** @type {RegExp} */ (sign).test(bare)).map(([, shown]) => String(shown));
  if (QUOTE.test(bare)) passed.push('"');
  // In a query of capitals these are words like others.
  const operators = /\p{Ll}/u.test(typed) ? [...bare.matchAll(OPERATOR)].map(it => it[2]) : [];
  const sent = operators.length ? typed.replace(OPERATOR, '$1').replace(/\s+/g, ' ').trim() : typed.trim();
  return { sent, phrases, passed: [...new Set([...passed, ...operators])] };
}

/** @type {(text: string) => string | undefined} the name of the first sign that no command can carry, or undefined */
export function badSign(text) {
  const found = /[\0-\x1f\x7f]|[\ud800-\udbff](?![\udc00-\udfff])|(?<![\ud800-\udbff])[\udc00-\udfff]/.exec(text);
  return found ? `U+${found[0].charCodeAt(0).toString(16).toUpperCase().padStart(4, '0')}` : undefined;
}
