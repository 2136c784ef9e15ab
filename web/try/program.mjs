// The program, to compare with: its commands, the folders of archives, and one link to its server. And what a script
// sees.

import { execFileSync, spawn } from 'node:child_process';
import { mkdirSync, writeFileSync } from 'node:fs';
import { createConnection, createServer } from 'node:net';
import { fileURLToPath } from 'node:url';

const LOADING_MS = 300000, FOLDER = fileURLToPath(new URL('../../owner/folder.py', import.meta.url));

/** Says whether something is as wanted. One that is not fails the script. */
export function see(about, right, got = '') {
  if (!right) process.exitCode = 1;
  console.log(`${right ? 'as wanted' : 'OTHERWISE'}: ${about}${got}`);
}

/** The frame of a request for the best r documents, as docs/formats.md has it. */
function request(r, query) {
  const text = Buffer.from(query), head = Buffer.from([0, 0, 0, 0, 1, 2, 0, 0, 0, 0]);
  head.writeUInt32BE(6 + text.length);
  head.writeUInt16BE(r, 6);
  head.writeUInt16BE(text.length, 8);
  return Buffer.concat([head, text]);
}

/** Runs a command: { status, out }. */
export function run(program, ...words) {
  try {
    const out = execFileSync(program, words, { maxBuffer: 2 ** 28, stdio: ['ignore', 'pipe', 'ignore'] });
    return { status: 0, out: out.toString() };
  } catch (fault) {
    if (typeof fault.status !== 'number') throw fault;
    return { status: fault.status, out: fault.stdout.toString() };
  }
}

/** Makes the archive of these texts in a room, and its folder in one for all: its root. */
export function archive(program, texts, room) {
  mkdirSync(room, { recursive: true });
  const [collection, one, two] = ['texts.json', 'index', 'index2'].map(name => `${room}/${name}`);
  writeFileSync(collection, JSON.stringify(texts));
  run(program, 'build', collection, one);
  const root = run(program, 'migrate', one, two).out.trim();
  execFileSync('python3', [FOLDER, two, `${room}/folder`]);
  return root;
}

const freePort = () => new Promise(done => {
  const it = createServer().listen(0, '127.0.0.1', () => {
    const { port } = it.address();
    it.close(() => done(port));
  });
});

/**
 * A server over one index, which it loads once, and one link to it. `prove` returns the bytes that `ats prove` stores.
 */
export async function serve(program, index) {
  const port = await freePort();
  const child = spawn(program, ['serve', index, '1', `127.0.0.1:${port}`], { stdio: ['ignore', 'pipe', 'inherit'] });
  let timer;
  await new Promise((done, failed) => {
    child.stdout.once('data', done);
    child.once('exit', code => failed(new Error(`serve ended: ${code}`)));
    timer = setTimeout(() => failed(new Error('serve is silent')), LOADING_MS);
  }).finally(() => clearTimeout(timer));
  const socket = createConnection({ host: '127.0.0.1', port, noDelay: true });
  let held = [], size = 0, closed = false, wake = () => {};
  socket.on('close', () => { closed = true; wake(); });
  socket.on('data', piece => { held.push(piece); size += piece.length; wake(); });
  const take = async wanted => {
    while (size < wanted) {
      if (closed) throw new Error('the server has closed the link');
      await new Promise(done => { wake = done; });
    }
    const all = Buffer.concat(held, size);
    [held, size] = [[all.subarray(wanted)], all.length - wanted];
    return all.subarray(0, wanted);
  };
  return {
    async prove(r, query) {
      socket.write(request(r, query));
      const body = await take((await take(4)).readUInt32BE());
      if (body[0] !== 0) throw new Error(`code ${body[1]} for ${query}`);
      return body.subarray(1);
    },
    end: () => new Promise(done => { child.once('exit', done); socket.end(); }),
  };
}
