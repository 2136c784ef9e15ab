// The TNRA walk over the lists of one archive or of several: for each the first cut of its schedule (docs/client.md) at
// which the best documents of all are settled. Of one archive that is the cut of its own proof.

import { ofShards } from './shards.mjs';

const STEPS = [1117, 1218, 1328, 1448, 1579, 1722, 1878];

/**
 * @typedef {{ list: import('./list.mjs').InvertedList, coefficient: number }} Lane
 * @typedef {{ lanes: Lane[], documents: number }} Shard
 * @typedef {{ doc: number, low: number, high: number }} Bracket
 * @typedef {{ best: Bracket[], other: number }} Stand the best documents at a cut, and the most of any other one
 * @typedef {{ cut: number[], rows: number[], met: number[] }} Settled
 */

/**
 * @param {number} documents
 * @param {number} having
 */
export function idf(documents, having) {
  const q = Math.floor(1024 * (2 * documents + 2) / (2 * having + 1));
  if (q < 1024) return 1;
  const e = 21 - Math.clz32(q), m = q >>> e; // q is below 2^28
  return 1 + 8 * e + STEPS.filter(step => step <= m).length;
}

/**
 * What a list may still add to a score after its first `shown` entries.
 * @type {(lane: Lane, shown: number) => number}
 */
const restOf = ({ list, coefficient }, shown) => shown === list.length ? 0 : coefficient * list.impacts[shown - 1];

/**
 * The r-th largest of the values of these documents, or the least if there are fewer: without sorting all.
 * @type {(r: number, docs: number[], values: Uint32Array) => number}
 */
function largest(r, docs, values) {
  /** @type {number[]} */
  let kept = [];
  let floor = -1;
  const trim = () => { kept = kept.sort((a, b) => b - a).slice(0, r); };
  for (const doc of docs) {
    if (values[doc] > floor && kept.push(values[doc]) === 2 * r) {
      trim();
      floor = kept[r - 1];
    }
  }
  trim();
  return kept[kept.length - 1];
}

/** Bounds of the met documents at a cut, of one archive after another. */
class Bounds {
  #low; #named; #room; #threshold = 0;
  /** @type {number[]} */
  #rests = [];

  /** @param {number} documents at most, of each archive */
  constructor(documents) {
    this.#low = new Uint32Array(documents); // 255 × 124 × 65,535 is below 2^32
    this.#named = new Uint32Array(documents); // which lists name the document, a bit for each
    this.#room = new Uint32Array(documents);
    this.met = this.#room.subarray(0, 0);
  }

  /** @type {(lanes: Lane[], cut: number[]) => void} */
  at(lanes, cut) {
    const { met } = this, low = this.#low, named = this.#named, room = this.#room;
    for (let i = 0; i < met.length; i++) low[met[i]] = named[met[i]] = 0;
    let count = 0;
    lanes.forEach(({ list: { docs, impacts }, coefficient }, lane) => {
      for (let i = 0; i < cut[lane]; i++) {
        const doc = docs[i];
        if (named[doc] === 0) room[count++] = doc;
        low[doc] += coefficient * impacts[i];
        named[doc] |= 1 << lane;
      }
    });
    this.met = room.subarray(0, count);
    this.#rests = lanes.map((lane, i) => restOf(lane, cut[i]));
    this.#threshold = this.#rests.reduce((sum, rest) => sum + rest, 0);
  }

  /** @param {number} doc */
  #high(doc) {
    const rests = this.#rests, named = this.#named[doc];
    let bound = this.#low[doc];
    for (let i = 0; i < rests.length; i++) if (!(named >>> i & 1)) bound += rests[i];
    return bound;
  }

  /** The met documents with at least the threshold: a row below it settles nothing, and most documents are below it. */
  #above() {
    const { met } = this, low = this.#low, threshold = this.#threshold, found = [];
    for (let i = 0; i < met.length; i++) if (low[met[i]] >= threshold) found.push(met[i]);
    return found;
  }

  /**
   * The first r of these documents by low, then high, both falling, then by number.
   * @type {(r: number, docs: number[]) => number[]}
   */
  #best(r, docs) {
    const low = this.#low, least = largest(r, docs, low); // so few of them are sorted by all three
    const byAll = (a, b) => low[b] - low[a] || this.#high(b) - this.#high(a) || a - b;
    return docs.filter(doc => low[doc] >= least).sort(byAll).slice(0, r);
  }

  /** @type {(best: number[]) => number} the most that a document may score which is none of these */
  #mostOfOthers(best) {
    const { met } = this, low = this.#low, threshold = this.#threshold, inside = new Set(best);
    let most = threshold;
    for (let i = 0; i < met.length; i++) {
      const doc = met[i];
      if (low[doc] + threshold > most && !inside.has(doc)) most = Math.max(most, this.#high(doc));
    }
    return most;
  }

  /** @type {(r: number) => Stand} */
  stand(r) {
    const best = this.#best(r, this.#above());
    return {
      best: best.map(doc => ({ doc, low: this.#low[doc], high: this.#high(doc) })),
      other: this.#mostOfOthers(best)
    };
  }
}

const FURTHER = 4;

/** The walk along the lists of one archive: which list each turn advances, as far as the entries are here. */
class Walk {
  #lanes; #bounds; #shown;
  #lists = new Uint8Array(1024); // there are at most 32 lanes

  /**
   * @param {Lane[]} lanes
   * @param {Bounds} bounds
   */
  constructor(lanes, bounds) {
    this.#lanes = lanes;
    this.#bounds = bounds;
    this.#shown = lanes.map(() => 1); // the cut after all turns
    this.turns = 0;
    this.goesOn = true; // false once all lists are shown
  }

  /** @param {number} entries of each list */
  async upTo(entries) {
    await Promise.all(this.#lanes.map(({ list }) => list.upTo(entries)));
    this.#run();
  }

  /** Reads each list on to several times its shown entries, if most of it is shown: a round costs more than bytes. */
  async readOn() {
    const shown = this.#shown, isNear = ({ list }, i) => 2 * shown[i] > list.known;
    await Promise.all(this.#lanes.map((lane, i) => isNear(lane, i) && lane.list.upTo(FURTHER * shown[i])));
    this.#run();
  }

  /** Goes on until the entry of the next turn is not here. */
  #run() {
    const shown = this.#shown, lanes = this.#lanes, rests = lanes.map((lane, i) => restOf(lane, shown[i]));
    for (;;) {
      let next = -1;
      for (let i = 0; i < lanes.length; i++) {
        if (shown[i] < lanes[i].list.length && (next < 0 || rests[i] > rests[next])) next = i;
      }
      this.goesOn = next >= 0;
      if (next < 0 || shown[next] === lanes[next].list.known) return;
      this.#take(next);
      rests[next] = restOf(lanes[next], shown[next]);
    }
  }

  /** @param {number} lane */
  #take(lane) {
    if (this.turns === this.#lists.length) {
      const larger = new Uint8Array(2 * this.turns);
      larger.set(this.#lists);
      this.#lists = larger;
    }
    this.#lists[this.turns++] = lane;
    this.#shown[lane]++;
  }

  /** @param {number} turns */
  #cutAfter(turns) {
    const cut = this.#lanes.map(() => 1);
    for (let i = 0; i < turns; i++) cut[this.#lists[i]]++;
    return cut;
  }

  /** @type {(turns: number, r: number) => Stand} */
  standAfter(turns, r) {
    this.#bounds.at(this.#lanes, this.#cutAfter(turns));
    return this.#bounds.stand(r);
  }

  /** @type {(turns: number, r: number) => Settled} */
  settledAfter(turns, r) {
    const rows = this.standAfter(turns, r).best.map(({ doc }) => doc);
    return { cut: this.#cutAfter(turns), rows, met: [...this.#bounds.met.slice().sort()] };
  }
}

/** What a shard's rest is if so many of its best are rows. */
const restOfStand = ({ best, other }, rows) => best.slice(rows).reduce((most, { high }) => Math.max(most, high), other);

/**
 * How many rows of the best r each shard has, and which shards keep these from being settled, as docs/client.md says.
 * @param {Stand[]} stands
 * @param {number} r
 */
function merged(stands, r) {
  const all = stands.flatMap(({ best }, shard) => best.map(it => ({ ...it, shard })));
  const rows = all.sort((a, b) => b.low - a.low || b.high - a.high || a.shard - b.shard || a.doc - b.doc).slice(0, r);
  const shares = stands.map(() => 0), blocking = new Set();
  rows.forEach(({ high, shard }, i) => {
    shares[shard]++;
    if (i > 0 && high > rows[i - 1].low) blocking.add(shard).add(rows[i - 1].shard);
  });
  const least = rows.length === r ? rows[r - 1].low : 0, rests = stands.map((it, i) => restOfStand(it, shares[i]));
  rests.forEach((rest, shard) => { if (rest > least) blocking.add(shard); });
  return { shares, rests, blocking };
}

// Entries of all lists together that are read first: some 52 KiB. Of one list the first r settle the answer.
const FIRST = 8192, AT_ONCE = 16;

/**
 * Reads lists on until what is here settles the best r of all, the most promising shards first. Returns the stand of
 * each shard, cut to its rows.
 * @param {Walk[]} walks
 * @param {number} r
 */
async function readAll(walks, r) {
  const stands = walks.map(walk => walk.standAfter(walk.turns, r));
  for (;;) {
    const { shares, rests, blocking } = merged(stands, r);
    if (blocking.size === 0) return { stands: stands.map((it, i) => cutTo(it, shares[i])), shares };
    const left = walks.map((_, i) => i).filter(i => blocking.has(i) && walks[i].goesOn);
    if (left.length === 0) throw new Error('whole lists settle nothing');
    const chosen = new Set(left.sort((a, b) => rests[b] - rests[a]).slice(0, AT_ONCE));
    await ofShards(walks, async (walk, i) => { if (chosen.has(i)) await walk.readOn(); });
    chosen.forEach(i => { stands[i] = walks[i].standAfter(walks[i].turns, r); });
  }
}

/** @type {(stand: Stand, rows: number) => Stand} the same stand with so many of its best */
const cutTo = (stand, rows) => ({ best: stand.best.slice(0, rows), other: restOfStand(stand, rows) });

/**
 * For each shard the cut, the rows and the met documents by which the best r of all are settled.
 * @type {(shards: Shard[], r: number) => Promise<Settled[]>}
 */
export async function walk(shards, r) {
  const bounds = new Bounds(Math.max(...shards.map(({ documents }) => documents)));
  const walks = shards.map(({ lanes }) => new Walk(lanes, bounds));
  const lists = shards.reduce((sum, { lanes }) => sum + lanes.length, 0), first = Math.ceil(FIRST / lists);
  await ofShards(walks, (walk, i) => walk.upTo(shards[i].lanes.length === 1 ? Math.min(r, first) : first));
  const { stands, shares } = await readAll(walks, r);
  // Impacts fall along a list, so what is settled stays settled: bounds only tighten, and a document that is met later
  // was below the threshold. So halving finds the first settled cut, of one shard while the others stay.
  const hasAll = () => stands.every(({ best }, i) => best.length === shares[i]);
  return walks.map((walk, i) => {
    let unsettled = -1, settled = walk.turns;
    while (settled - unsettled > 1) {
      const middle = settled + unsettled >> 1, before = stands[i];
      stands[i] = cutTo(walk.standAfter(middle, r), shares[i]);
      if (hasAll() && merged(stands, r).blocking.size === 0) settled = middle;
      else [unsettled, stands[i]] = [middle, before];
    }
    return walk.settledAfter(settled, shares[i]);
  });
}
