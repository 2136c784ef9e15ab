// The archives of a catalog, side by side.

import { Fault } from './fault.mjs';

/**
 * Does the same with each shard, at the same time. A fault names the shard that it is of, if there are several.
 * @template Shard, Made
 * @param {Shard[]} shards
 * @param {(shard: Shard, number: number) => Promise<Made>} work
 */
export const ofShards = (shards, work) => Promise.all(shards.map(async (shard, number) => {
  try {
    return await work(shard, number);
  } catch (fault) {
    if (!(fault instanceof Fault) || shards.length === 1) throw fault;
    throw new Fault(fault.word, fault.line.replace(/^host: /, `host: shard ${number}: `));
  }
}));
