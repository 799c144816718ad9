// Texts as they go over a socket: whole, or in parts, each behind the count of those still to come and `_`.

import { bytesOf } from './values.js';

// The most bytes of a text that goes whole, and of a part.
const LONGEST_PART = 262_144;

/** The pieces of a text. */
export function piecesOf(text) {
  if (bytesOf(text) <= LONGEST_PART) {
    return [text];
  }
  const bytes = new TextEncoder().encode(text);
  const decoder = new TextDecoder('utf-8', { ignoreBOM: true });
  const parts = [];
  for (let from = 0, to; from < bytes.length; from = to) {
    to = Math.min(from + LONGEST_PART, bytes.length);
    // A byte within a character begins no part.
    while (to < bytes.length && (bytes[to] & 0xc0) === 0x80) {
      to -= 1;
    }
    parts.push(decoder.decode(bytes.subarray(from, to)));
  }
  return parts.map((part, place) => `${parts.length - 1 - place}_${part}`);
}

/** Puts pieces together again. */
export class Pieces {
  #parts = [];
  // The number that the next part must have; none between texts.
  #due = null;

  /** Takes a piece; answers the text that it ends, or `null` before. @throws {Error} of one out of turn */
  add(piece) {
    const [head, number] = piece.startsWith('{') ? ['', '0'] : /^(0|[1-9][0-9]{0,5})_/.exec(piece) ?? [];
    if (head === undefined || (this.#due !== null && (head === '' || Number(number) !== this.#due))) {
      throw new Error('a piece came that is not the next one');
    }
    this.#parts.push(piece.slice(head.length));
    if (Number(number) > 0) {
      this.#due = Number(number) - 1;
      return null;
    }
    const text = this.#parts.join('');
    this.#parts = [];
    this.#due = null;
    return text;
  }
}
