// What a client can take back and do again: marks, undo, redo and bail.

import { check } from './fault.js';
import { joined } from './operations.js';

/** A client's history, and what was taken back. */
export class Marks {
  // What does a diff to the document, and answers the diff that undoes it.
  #act;
  // `{name}` of a mark, `{inverse}` of an edit, the oldest first.
  #history = [];
  // `{diff, marks}` of each undo, the newest last.
  #undone = [];

  constructor(act) { this.#act = act; }

  mark(name) { this.#history.push({ name }); }

  /** An edit was done that this diff undoes. What was taken back can't be done again. */
  edit(inverse) {
    this.#keep(inverse);
    this.#undone = [];
  }

  /** Takes the edits back to the last mark before them; answers whether there was one to take back. */
  undo() {
    const last = this.#history.findLastIndex((entry) => 'inverse' in entry);
    if (last < 0) {
      return false;
    }
    const from = this.#history.findLastIndex((entry, place) => place < last && 'name' in entry) + 1;
    const marks = this.#history.slice(last + 1);
    this.#undone.push({ diff: this.#takeBack(from), marks });
    return true;
  }

  /** Does again what was taken back last; answers whether anything was. */
  redo() {
    const last = this.#undone.pop();
    if (last === undefined) {
      return false;
    }
    this.#keep(this.#act(last.diff));
    this.#history.push(...last.marks);
    return true;
  }

  /** Takes all back since the last mark of a name. @throws {EditFault} `NoMark` */
  bail(name) {
    const from = this.#history.findLastIndex((entry) => entry.name === name);
    check(from >= 0, 'NoMark');
    this.#takeBack(from);
    this.#undone = [];
  }

  // Does the inverses from a place on, the newest first, and forgets them; answers the inverse of all.
  #takeBack(from) {
    const edits = this.#history.splice(from).filter((entry) => 'inverse' in entry);
    return this.#act(edits.reduceRight((diff, { inverse }) => joined(diff, inverse), {}));
  }

  // An inverse that names no id isn't kept.
  #keep(inverse) {
    if (Object.keys(inverse).length > 0) {
      this.#history.push({ inverse });
    }
  }
}
