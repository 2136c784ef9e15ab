// Reads texts by the words of the proved module: where the query's words stand, which part of a text to show first, and
// whether words stand together. Runs in the worker of the checks. Not proved.

/**
 * @typedef {{ term: string, from: number, to: number }} Word a word of a text, and where it stands, in UTF-16 units
 * @typedef {{ which: number, from: number, to: number }} Hit which of the wanted sequences, and where it stands
 * @typedef {{ words: Map<string, number>, count: number }} Bag words with how often each is there, and how many
 *   there are
 */

// No word goes over one of these, and a text that is cut there has the words of its parts.
const BETWEEN_SPACES = /[^ \t\n\v\f\r]+/g;
// No word ends between two of these.
const PLAIN = /^[A-Za-z0-9]{2}$/;
// Signs that belong to what is before them. Where one is, a cut may need more than its neighbourhood.
const JOINING = /[\p{M}\p{Cf}\p{Regional_Indicator}]/u;
const EDGES = /^[^\p{L}\p{N}\p{M}_]+|[^\p{L}\p{N}\p{M}_]+$/gu;

const LONG = 128, NEAR = 16; // the longest piece that is not halved; what is looked at on each side of a cut
const MOST_KEPT = 2 ** 16, MOST_HITS = 10000;
const NO_TERM = 5, MEMORY = 34; // reasons of the module
const EXCERPT = 320, LEAD = 100, TITLE = 120;

/** Reads by `query`, which has the words of a short text, in the order of their bytes. */
export class Reading {
  #query;
  /** @type {Map<string, Word[]>} */
  #kept = new Map();

  /** @param {import('./check.mjs').Checker['query']} query */
  constructor(query) {
    this.#query = query;
  }

  /** @type {(text: string) => string[]} the words of a text in their order */
  sequence(text) {
    return this.#wordsOf(text).map(({ term }) => term);
  }

  /** @type {(text: string, sequences: string[][]) => boolean} whether each of these sequences stands in the text */
  holds(text, sequences) {
    return new Set(this.#hits(text, sequences).map(({ which }) => which)).size === sequences.length;
  }

  /**
   * A title, and the part of the text with most different sequences.
   * @param {string} text
   * @param {string[][]} sequences
   * @param {boolean} titles whether first lines are titles
   */
  excerpt(text, sequences, titles) {
    const { title, start } = titled(text, titles), { length } = text;
    const hits = this.#hits(text, sequences).filter(({ from }) => from >= start);
    const [from, to] = excerptOf(text, start, bestHits(hits));
    const marks = apart(hits.filter(it => it.from >= from && it.to <= to)).map(it => [it.from - from, it.to - from]);
    return { title, text: text.slice(from, to), marks, before: from > start, after: to < length, length };
  }

  /**
   * A title, the text, and where the sequences stand in it, at most so many as one looks through.
   * @param {string} text
   * @param {string[][]} sequences
   */
  whole(text, sequences) {
    const all = apart(this.#hits(text, sequences)), hits = all.slice(0, MOST_HITS).map(({ from, to }) => [from, to]);
    return { title: titled(text, false).title, text, hits, count: all.length, isLaidOut: isLaidOut(text) };
  }

  /** @param {string} text */
  #wordsOf(text) {
    const words = [];
    for (const { 0: piece, index } of text.matchAll(BETWEEN_SPACES)) {
      for (const word of moved(this.#inPiece(piece), index)) words.push(word); // more than a call may have arguments
    }
    return words;
  }

  /** @type {(text: string, sequences: string[][]) => Hit[]} */
  #hits(text, sequences) {
    /** @type {Hit[]} */
    const hits = [];
    const words = this.#wordsOf(text);
    words.forEach(({ from }, i) => sequences.forEach((sequence, which) => {
      const stands = sequence.every((term, k) => words[i + k]?.term === term);
      if (stands) hits.push({ which, from, to: words[i + sequence.length - 1].to });
    }));
    return hits;
  }

  /** @type {(piece: string) => Word[]} the words of a text without spaces */
  #inPiece(piece) {
    let words = this.#kept.get(piece);
    if (words) return words;
    const bag = piece.length > LONG ? undefined : this.#bag(piece);
    words = bag ? this.#split(piece, bag) : this.#halved(piece);
    if (this.#kept.size === MOST_KEPT) this.#kept.clear();
    this.#kept.set(piece, words);
    return words;
  }

  /**
   * Cuts the shortest front off that has one word and leaves the others: the module says which words each part has.
   * @type {(piece: string, bag: Bag) => Word[]}
   */
  #split(piece, bag) {
    if (bag.count === 0) return [];
    const [only] = bag.words.keys();
    if (bag.count === 1) return [placed(only, piece)];
    const { at, term, back } = this.#firstWord(piece, bag);
    return [placed(term, piece.slice(0, at)), ...moved(this.#split(piece.slice(at), back), at)];
  }

  /**
   * Where a front with one word ends, that word, and what is after it.
   * @type {(text: string, bag: Bag) => { at: number, term: string, back: Bag }}
   */
  #firstWord(text, bag) {
    for (let at = 1; at < text.length; at++) {
      if (!mayCut(text, at)) continue;
      const front = this.#bag(text.slice(0, at)), back = this.#bag(text.slice(at));
      if (front?.count === 1 && back && isSum(bag, front, back)) return { at, term: [...front.words.keys()][0], back };
    }
    throw new Error('words without an order');
  }

  /**
   * Cuts a long piece near its middle, or has no word in it if that is nowhere possible: it is one word that is too
   * long.
   * @type {(piece: string) => Word[]}
   */
  #halved(piece) {
    const middle = piece.length >> 1;
    for (let i = 0; i < middle; i++) {
      const at = [middle + i, middle - i].find(it => this.#isCut(piece, it));
      if (at) return [...this.#inPiece(piece.slice(0, at)), ...moved(this.#inPiece(piece.slice(at)), at)];
    }
    const bag = this.#bag(piece);
    return bag ? this.#split(piece, bag) : [];
  }

  /** @type {(text: string, at: number) => boolean} whether a word ends here, by what is near */
  #isCut(text, at) {
    if (!mayCut(text, at) || JOINING.test(text.slice(at - 1, at + 2))) return false;
    const front = text.slice(Math.max(at - NEAR, 0), at), back = text.slice(at, at + NEAR);
    const [all, ...parts] = [front + back, front, back].map(part => this.#bag(part));
    return isSum(all, parts[0], parts[1]);
  }

  /**
   * The words of a short text, or undefined if it has more than a query may have.
   * @type {(text: string) => Bag | undefined}
   */
  #bag(text) {
    const { status, reason, terms = [] } = this.#query(text);
    if (status !== 0 && reason === MEMORY) throw new RangeError('out of memory');
    if (status !== 0 && reason !== NO_TERM) return undefined;
    const words = new Map(terms.map(({ term, weight }) => [new TextDecoder().decode(term), weight]));
    return { words, count: terms.reduce((sum, { weight }) => sum + weight, 0) };
  }
}

/**
 * The same words, so many units later.
 * @type {(words: Word[], by?: number) => { term: string, from: number, to: number }[]}
 */
const moved = (words, by = 0) => words.map(({ term, from, to }) => ({ term, from: from + by, to: to + by }));

/**
 * Whether all are there, and the first bag has just what the others have.
 * @type {(all: Bag | undefined, front: Bag | undefined, back: Bag | undefined) => boolean}
 */
const isSum = (all, front, back) => Boolean(all && front && back && all.count === front.count + back.count
  && [...all.words].every(([word, count]) => count === (front.words.get(word) ?? 0) + (back.words.get(word) ?? 0)));

/** @type {(text: string, at: number) => boolean} never inside a character, nor between two plain letters or digits */
const mayCut = (text, at) => !/[\udc00-\udfff]/.test(text[at]) && !PLAIN.test(text.slice(at - 1, at + 1));

/**
 * The word of a piece, without the signs about it.
 * @type {(term: string, piece: string) => { term: string, from: number, to: number }}
 */
function placed(term, piece) {
  const from = Math.max(piece.search(/[\p{L}\p{N}\p{M}_]/u), 0);
  return { term, from, to: from + piece.replace(EDGES, '').length };
}

/** @type {(hits: Hit[]) => Hit[]} without those that begin inside an earlier one */
function apart(hits) {
  let end = 0;
  return hits.filter(({ from, to }) => {
    if (from < end) return false;
    end = to;
    return true;
  });
}

/** @type {(hits: Hit[]) => Hit[]} the hits of the part with most different sequences, and of these with most hits */
function bestHits(hits) {
  /** @type {Map<number, number>} */
  const inside = new Map();
  let best = { first: 0, last: 0, different: 0 };
  for (let first = 0, last = 0; first < hits.length; first++) {
    for (; last < hits.length && hits[last].to - hits[first].from <= EXCERPT; last++) {
      inside.set(hits[last].which, (inside.get(hits[last].which) ?? 0) + 1);
    }
    const is = inside.size - best.different;
    if (is > 0 || (is === 0 && last - first > best.last - best.first)) best = { first, last, different: inside.size };
    const left = (inside.get(hits[first].which) ?? 1) - 1;
    if (left > 0) inside.set(hits[first].which, left);
    else inside.delete(hits[first].which);
    last = Math.max(last, first + 1);
  }
  return hits.length ? [hits[best.first], hits[Math.max(best.last - 1, best.first)]] : [];
}

/**
 * From where to where a text is shown at first, for its first and last hit.
 * @param {string} text
 * @param {number} start
 * @param {Hit[]} hits
 */
function excerptOf(text, start, [first, last]) {
  if (!first) return [start, edge(text, start + EXCERPT)];
  const room = Math.max(EXCERPT - (last.to - first.from), 0), lead = Math.min(LEAD, room >> 1);
  const from = first.from - start > lead ? edge(text, first.from - lead) : start;
  return [Math.min(from, first.from), Math.max(edge(text, from + EXCERPT), first.to)];
}

/** A place to cut near this one: before a word, and never inside a character. */
function edge(text, at) {
  if (at >= text.length) return text.length;
  const space = text.slice(at, at + 40).search(/\s/);
  if (space >= 0) return at + space + 1;
  return /[\udc00-\udfff]/.test(text[at]) ? at + 1 : at;
}

/**
 * The first line with a sign in it, and where the text goes on after it if that is its title.
 * @type {(text: string, titles: boolean) => { title: string, start: number }}
 */
function titled(text, titles) {
  const from = Math.max(text.search(/\S/), 0), found = text.indexOf('\n', from), end = found < 0 ? text.length : found;
  const line = text.slice(from, end).trim(), short = line.slice(0, edge(line, TITLE - 20)).trim();
  const title = line.length > TITLE ? `${short} …` : line;
  return { title, start: titles && line.length <= TITLE ? Math.min(end + 1, text.length) : 0 };
}

/** Whether the columns of a text say something: several of its lines have wide gaps, or begin with one. */
function isLaidOut(text) {
  const lines = text.slice(0, 20000).split('\n').filter(line => line.trim());
  return lines.length > 3 && 4 * lines.filter(line => /^\s{2,}\S|\S {3,}\S/.test(line)).length > lines.length;
}
