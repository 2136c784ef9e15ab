// A folder of this machine as a host, for Node.

import { open, readFile } from 'node:fs/promises';
import { hostFault } from '../fault.mjs';

export class FolderHost {
  constructor(folder) {
    this.folder = folder;
  }

  async read(path, from, to, question) {
    question?.began();
    const gone = () => { throw hostFault('missing', path, 'not there'); };
    const file = await open(`${this.folder}/${path}`).catch(gone);
    try {
      const { buffer, bytesRead } = await file.read(new Uint8Array(to - from), 0, to - from, from);
      question?.took(bytesRead);
      return buffer.subarray(0, bytesRead);
    } finally {
      await file.close();
    }
  }

  file(path) { return readFile(`${this.folder}/${path}`).catch(() => undefined); }

  forget() {}
}
