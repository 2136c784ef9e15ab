// Why there is no answer. Not proved.

/**
 * `word` is one of: link (cannot be reached), silent, missing (no such file), busy, cut (ended too soon), long (more
 * than may be), wrong (other bytes than the archive has), input (the question breaks a limit), memory, stopped (the
 * check ended). `line` is ASCII and names the place. sentences.mjs says both to a person.
 */
export class Fault extends Error {
  /**
   * @param {string} word
   * @param {string} line
   */
  constructor(word, line) {
    super(`${word}: ${line}`);
    this.name = 'Fault';
    this.word = word;
    this.line = line;
  }
}

/**
 * A host failed over a file of the archive.
 * @param {string} word
 * @param {string} path of the file
 * @param {string} what
 */
export const hostFault = (word, path, what) => new Fault(word, `host: ${path.replace(/.*\//, '')}: ${what}`);

/** @type {(fault: unknown) => Fault} what went wrong, if it is no Fault of its own: the check stopped */
export const faultOf = fault => fault instanceof Fault ? fault : new Fault('stopped', `${fault}`);

/** @type {(fault: unknown, ...words: string[]) => void} throws what is no Fault of one of these words */
export function throwOthers(fault, ...words) {
  if (!(fault instanceof Fault && words.includes(fault.word))) throw fault;
}
