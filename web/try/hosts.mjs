// What HTTP hosts may do to a request: each question must end as it is said here, within its time. Then mirrors,
// cancelling, bounds. usage: node hosts.mjs FOLDER ROOT WORD WORD    over the folder of an archive with these words

import { readFile } from 'node:fs/promises';
import { createServer } from 'node:http';
import { gzipSync } from 'node:zlib';
import { Assembler } from '../assembler.mjs';
import { MemoryCache } from '../cache.mjs';
import { Fault } from '../fault.mjs';
import { HttpHost } from '../http.mjs';
import { FolderHost } from './folder.mjs';
import { see } from './program.mjs';
import { termsOf } from './terms.mjs';

const [folder, root, ...words] = process.argv.slice(2), terms = termsOf(words.join(' ')), r = 10;
const limits = { silence: 2000, total: 8000 }; // a busy machine may be silent for a while itself
const nearby = new Assembler([new FolderHost(folder)]), roots = [root];
const [honest] = await nearby.ranked({ roots, terms, r });
const bomb = gzipSync(Buffer.alloc(2 ** 27));

const file = request => readFile(folder + decodeURI(request.url));
const bounds = request => (request.headers.range ?? 'bytes=0-1073741823').match(/\d+/g).map(Number);
const partOf = (bytes, request) => bytes.subarray(bounds(request)[0], bounds(request)[1] + 1);
const part = async request => partOf(await file(request), request);
const half = bytes => bytes.subarray(0, bytes.length >> 1);
const pause = ms => new Promise(done => setTimeout(done, ms));
const endless = reply => {
  const more = () => { while (!reply.destroyed && reply.write(Buffer.alloc(65536))); };
  reply.on('drain', more);
  more();
};
const inPieces = ms => async (request, reply) => {
  reply.writeHead(206);
  for (const byte of await part(request)) {
    reply.write(Buffer.of(byte));
    if (ms) await pause(ms);
  }
  reply.end();
};
/** Answers with this status, these headers, and what `make` makes of the range, or with the whole file. */
const sends = (status, make = it => it, headers = {}) => async (request, reply) =>
  reply.writeHead(status, headers).end(make(await (status === 206 ? part : file)(request)));
const GZIP = { 'Content-Encoding': 'gzip' }, NOTHING = () => '';
const good = sends(206), whole = sends(200);
/** The first so many requests fail in one way, and the rest are answered. */
const after = (count, bad) => (request, reply, number) => number <= count ? bad(request, reply) : good(request, reply);
const fails = (code, headers = {}) => (request, reply) => reply.writeHead(code, headers).end('no');
const resets = request => request.socket.destroy();

// For each host what it does, and how a question ends: by the honest bytes, or by a fault of one of these words.
const hosts = {
  'answers ranges': [good, 'honest'],
  'knows no ranges': [whole, 'honest'],
  'knows ranges now and then': [(request, reply, number) => (number % 2 ? good : whole)(request, reply), 'honest'],
  'ranges in pieces': [inPieces(0), 'honest'],
  'says another range than it sends': [sends(206, it => it, { 'Content-Range': 'bytes 5-9/10' }), 'honest'],
  'honest, and then endless': [
    async (request, reply) => {
      reply.writeHead(206).write(await part(request));
      endless(reply);
    },
    'honest wrong'
  ],
  'fails twice': [after(2, fails(500)), 'honest'],
  'is busy twice': [after(2, fails(503)), 'honest'],
  'resets once': [after(1, resets), 'honest'],
  'gzip of the part': [sends(206, gzipSync, GZIP), 'honest link'],
  'gzip of the whole': [sends(200, gzipSync, GZIP), 'honest'],
  'part of a gzip': [
    async (request, reply) => reply.writeHead(206, GZIP).end(partOf(gzipSync(await file(request)), request)),
    'link cut wrong'
  ],
  'says gzip and sends none': [sends(206, it => it, GZIP), 'link'],
  'a gzip of 128 MiB, 206': [sends(206, () => bomb, GZIP), 'wrong'],
  'a gzip of 128 MiB, 200': [sends(200, () => bomb, GZIP), 'long'],
  'endless, 206': [(request, reply) => endless(reply.writeHead(206)), 'wrong'],
  'endless, 200': [(request, reply) => endless(reply.writeHead(200)), 'long'],
  silent: [() => {}, 'silent'],
  'silent after the head': [(request, reply) => reply.writeHead(206).flushHeaders(), 'silent'],
  'silent in the middle':
    [async (request, reply) => reply.writeHead(206).write(half(await part(request))), 'silent'],
  'byte by byte': [inPieces(200), 'silent'],
  redirects: [(request, reply) => reply.writeHead(302, { Location: '/elsewhere' }).end(), 'link'],
  'redirects to itself': [(request, reply) => reply.writeHead(307, { Location: request.url }).end(), 'link'],
  'not found': [fails(404), 'missing'],
  forbidden: [fails(403), 'missing'],
  'not satisfiable': [fails(416), 'cut'],
  'no content': [(request, reply) => reply.writeHead(204).end(), 'missing'],
  'always fails': [fails(500), 'link'],
  'always busy': [fails(429, { 'Retry-After': '1000' }), 'busy'],
  'always resets': [resets, 'link'],
  'no HTTP': [request => request.socket.end('hello\r\n\r\n'), 'link'],
  'cut before its length': [
    async (request, reply) => {
      const bytes = await part(request);
      reply.writeHead(206, { 'Content-Length': bytes.length }).write(half(bytes));
      await pause(30);
      reply.destroy();
    },
    'link'
  ],
  'cut, with that length': [sends(206, half), 'cut'],
  'empty, 206': [sends(206, NOTHING), 'cut'],
  'empty, 200': [sends(200, NOTHING), 'cut'],
  'the whole file, 206': [async (request, reply) => reply.writeHead(206).end(await file(request)), 'cut wrong long'],
  'several parts': [
    sends(206, it => Buffer.concat([Buffer.from('--x\r\n\r\n'), it]),
      { 'Content-Type': 'multipart/byteranges; boundary=x' }),
    'wrong cut'
  ],
  'a page of its own': [sends(200, () => '<html>log in</html>', { 'Content-Type': 'text/html' }), 'wrong cut'],
};

const ends = (name, wanted, got, more = '') => see(`${name}: ${got}`, wanted.split(' ').includes(got), more);

async function served(answer, use) {
  let number = 0;
  const server = createServer((request, reply) => {
    reply.on('error', () => {});
    Promise.resolve(answer(request, reply, ++number)).catch(() => reply.destroy());
  });
  await new Promise(done => server.listen(0, '127.0.0.1', done));
  try {
    return await use(`http://127.0.0.1:${server.address().port}`, () => number);
  } finally {
    server.closeAllConnections();
    server.close();
  }
}

async function outcome(hosts, how) {
  try {
    const [got] = await new Assembler(hosts, { limits }).ranked({ roots, terms, r }, how);
    return Buffer.compare(honest, got) ? 'other bytes' : 'honest';
  } catch (fault) {
    return fault instanceof Fault ? fault.word : fault.name;
  }
}

for (const [name, [answer, wanted]] of Object.entries(hosts)) {
  const start = performance.now(), got = await served(answer, base => outcome([new HttpHost(base)]));
  const ms = performance.now() - start, late = ms > limits.total + 1500;
  ends(name, wanted, late ? 'late' : got, `, ${Math.round(ms)} ms`);
}
ends('nobody listens', 'link', await outcome([new HttpHost('http://127.0.0.1:9')]));
await served(good, async base => {
  for (const [name, [answer]] of Object.entries(hosts)) {
    const got = await served(answer, bad => outcome([new HttpHost(bad), new HttpHost(base)]));
    ends(`a mirror after: ${name}`, 'honest', got);
  }
});
// A cache on the way has another page for one file, as after a page to log in. Past it the host is honest.
const behindCache = (request, reply) => {
  const isPast = request.headers['cache-control'] === 'no-cache' || !request.url.endsWith('/texts-tree');
  return (isPast ? good : sends(200, () => '<html>log in</html>'))(request, reply);
};
/** It takes a moment to forget, as a browser's own store does. */
class SlowCache extends MemoryCache {
  async forget(folder) {
    await super.forget(folder);
    await pause(20);
  }
}
await served(behindCache, async base => {
  const assembler = new Assembler([new HttpHost(base)], { cache: new SlowCache(), limits });
  const asked = Array.from({ length: 36 }, async (_, doc) => {
    await pause(3 * doc);
    return assembler.text({ root, doc }).then(() => 'honest', fault => fault.word);
  });
  ends('a cache with another page, and many texts at once', 'honest', [...new Set(await Promise.all(asked))].join());
});
await served(() => {}, async base => {
  const stopper = new AbortController(), start = performance.now();
  setTimeout(() => stopper.abort(), 100);
  const got = await outcome([new HttpHost(base)], { signal: stopper.signal }), ms = performance.now() - start;
  ends('cancelled', 'AbortError', ms < 400 ? got : 'late', `, ${Math.round(ms)} ms`);
});
await served(async (request, reply) => { await pause(20); await good(request, reply); }, async (base, requests) => {
  const few = new Assembler([new HttpHost(base)], { limits: { ...limits, requests: 3 } });
  const got = await few.both({ roots, terms }).then(() => 'honest', fault => fault.word ?? fault.stack);
  ends('more requests than a question may make', 'long', got, `, ${requests()} requests`);
});
console.log(`the most memory: ${Math.round(process.resourceUsage().maxRSS / 2 ** 10)} MiB`);
