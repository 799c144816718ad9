// Index keys, by which siblings stand in order: between any two there is another.
//
// A key is an integer part, whose head tells how many digits it has, and a fraction. `docs/FORMATS.md` has
// the rules, 'Index keys'.

import { check } from './fault.js';

const DIGITS = '0123456789ABCDEFGHIJKLMNOPQRSTUVWXYZabcdefghijklmnopqrstuvwxyz';
const SMALLEST = `A${'0'.repeat(26)}`;
const LONGEST = 256;

/** Whether the text is a key. */
export function isKey(text) {
  return /^[A-Za-z][0-9A-Za-z]*$/.test(text) && text.length >= integerLength(text)
    && !fractionOf(text).endsWith('0') && text !== SMALLEST;
}

// How many characters the integer part of a key has, the head included: 2 to 27.
function integerLength(key) {
  const place = DIGITS.indexOf(key[0]) - DIGITS.indexOf('a');
  return place >= 0 ? place + 2 : 1 - place;
}

const integerOf = (key) => key.slice(0, integerLength(key));
const fractionOf = (key) => key.slice(integerLength(key));

/**
 * The key between two ends, each of which may be `null`.
 * @throws {EditFault} `NoKey` with the cause: `NotKey`, `NotLess`, `NoRoom` or `KeyTooLong`
 */
export function between(below, above) {
  check([below, above].every((end) => end === null || isKey(end)), 'NoKey', null, 'NotKey');
  check(below === null || above === null || below < above, 'NoKey', null, 'NotLess');
  const key = below === null ? before(above) : behind(below, above);
  check(key !== null, 'NoKey', null, 'NoRoom');
  check(key.length <= LONGEST, 'NoKey', null, 'KeyTooLong');
  return key;
}

/** So many keys that rise behind an end, which may be `null`: each `between` the one before it and none. */
export function severalBehind(below, count) {
  const keys = [];
  for (let last = below; keys.length < count; keys.push(last)) {
    last = between(last, null);
  }
  return keys;
}

// The key below an end, which may be `null`; `null` where there is none.
function before(above) {
  if (above === null) {
    return 'a0';
  }
  const integer = integerOf(above);
  if (integer === SMALLEST) {
    return integer + midpoint('', fractionOf(above));
  }
  const last = integer === above ? neighbour(integer, -1) : integer;
  return last === SMALLEST ? null : last;
}

// The key behind one, and below an end, which may be `null`.
function behind(below, above) {
  const integer = integerOf(below);
  if (above !== null && integer === integerOf(above)) {
    return integer + midpoint(fractionOf(below), fractionOf(above));
  }
  const next = neighbour(integer, 1);
  const isInside = next !== null && (above === null || next < above);
  return isInside ? next : integer + midpoint(fractionOf(below), null);
}

// The integer part after this one (`by` 1) or before it (-1), `null` where there is none.
function neighbour(integer, by) {
  const [first, last] = by === 1 ? ['0', 'z'] : ['z', '0'];
  const kept = integer.slice(1).replace(new RegExp(`${last}+$`), '');
  if (kept !== '') {
    return (integer[0] + shifted(kept, by)).padEnd(integer.length, first);
  }
  const head = shifted(integer[0], by);
  return integer[0] === (by === 1 ? 'z' : 'A') ? null : head.padEnd(integerLength(head), first);
}

// The text with its last digit moved so far.
const shifted = (text, by) => text.slice(0, -1) + DIGITS[DIGITS.indexOf(text.at(-1)) + by];

// What lies half way between two fractions, of which the first is less; `null` as the second is none.
function midpoint(below, above) {
  let key = '';
  for (let place = 0; above === null || place < above.length; place += 1) {
    const low = DIGITS.indexOf(below[place] ?? '0');
    const high = above === null ? DIGITS.length : DIGITS.indexOf(above[place]);
    if (high - low > 1) {
      return key + DIGITS[low + Math.ceil((high - low) / 2)];
    }
    if (high > low && above !== null) {
      const isLast = place + 1 === above.length;
      return isLast ? key + DIGITS[low] + midpoint(below.slice(place + 1), null) : key + DIGITS[high];
    }
    key += DIGITS[low];
  }
  return key;
}
