// Writes the texts of one collection. usage: node texts.mjs SEED NAME FILE

import { writeFileSync } from 'node:fs';
import { collections } from './collections.mjs';

const [seed, name, file] = process.argv.slice(2);
writeFileSync(file, JSON.stringify(collections(Number(seed))[name]));
