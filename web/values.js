// Values as messages have them: `null`, truth values, whole numbers, texts, lists and maps. A map is a plain
// object, of which the own keys count. What is made here may share parts with what it was made of, and is
// never changed afterwards.

import { firstFault } from './fault.js';

export const isMap = (value) => typeof value === 'object' && value !== null && !Array.isArray(value);

/** The value under a key of a map; `undefined` where there is none, or where the value is no map. */
export const at = (value, key) => (isMap(value) && Object.hasOwn(value, key) ? value[key] : undefined);

/** The text under a key, and the empty text where there is none. */
export const textAt = (value, key) => (typeof at(value, key) === 'string' ? value[key] : '');

/** The whole number in range under a key, and 0 where there is none. */
export const numberAt = (value, key) => (Number.isSafeInteger(at(value, key)) ? value[key] : 0);

/** The map with other values under some keys; what is no map stays as it is. */
export const withFields = (value, fields) => (isMap(value) ? { ...value, ...fields } : value);

/** Sets what stands under a key of a `Map`, or takes it away where that is `undefined`. */
export function setIn(map, key, value) {
  if (value === undefined) {
    map.delete(key);
  } else {
    map.set(key, value);
  }
}

/** The map where under each key of another one stands what a function makes of both values, if anything. */
export function changedAt(map, changes, changed) {
  const fields = new Map(Object.entries(map));
  for (const [key, change] of Object.entries(changes)) {
    setIn(fields, key, changed(fields.get(key), change, key));
  }
  return Object.fromEntries(fields);
}

/** How many bytes the text has in UTF-8. */
export const bytesOf = (text) =>
  (/^[\0-\x7f]*$/.test(text) ? text.length : new TextEncoder().encode(text).length);

/** The order of texts by their bytes in UTF-8: below 0 where the first comes before, above 0 where behind. */
export function byBytes(one, other) {
  let place = 0;
  while (place < one.length && one.charCodeAt(place) === other.charCodeAt(place)) {
    place += 1;
  }
  // Characters have the order of their bytes; an end comes before any.
  return (one.codePointAt(place) ?? -1) - (other.codePointAt(place) ?? -1);
}

/** The keys of a map, rising by bytes. */
export const keysOf = (map) => Object.keys(map).sort(byBytes);

/** The value in compact form, the keys of each map rising by bytes. A `BigInt` is printed as a number. */
export function print(value) {
  if (Array.isArray(value)) {
    return `[${value.map(print).join(',')}]`;
  }
  if (isMap(value)) {
    return `{${keysOf(value).map((key) => `${JSON.stringify(key)}:${print(value[key])}`).join(',')}}`;
  }
  return typeof value === 'bigint' ? String(value) : JSON.stringify(value);
}

/** Some items in lists, by what a function answers of each. */
export function groupedBy(items, keyOf) {
  const groups = new Map();
  for (const item of items) {
    const key = keyOf(item);
    groups.set(key, groups.get(key) ?? []).get(key).push(item);
  }
  return groups;
}

export function isSame(one, other) {
  const isWhole = (value) => typeof value !== 'object' || value === null;
  if (isWhole(one) || isWhole(other) || Array.isArray(one) !== Array.isArray(other)) {
    return one === other;
  }
  const keys = Object.keys(one);
  return keys.length === Object.keys(other).length
    && keys.every((key) => Object.hasOwn(other, key) && isSame(one[key], other[key]));
}

/** The weight of a value: 1 for each value in it, and the bytes of each text and key. */
export function weightOf(value) {
  if (typeof value === 'string') {
    return 1 + bytesOf(value);
  }
  if (Array.isArray(value)) {
    return value.reduce((sum, item) => sum + weightOf(item), 1);
  }
  const keys = isMap(value) ? Object.keys(value) : [];
  return keys.reduce((sum, key) => sum + bytesOf(key) + weightOf(value[key]), 1);
}

/**
 * Why no message may have a value, or `null`: `Field` (it has none of the kinds above), `BadJson` (half a
 * character in a text), `NotWhole`, `OutOfRange` (past 2^53 - 1), `TooDeep` (nests deeper than this).
 */
export function messageFault(value, deepest) {
  switch (typeof value) {
    case 'boolean':
      return null;
    case 'string':
      return /\p{Surrogate}/u.test(value) ? 'BadJson' : null;
    case 'number':
      return numberFault(value);
    case 'object':
      return value === null ? null : partsFault(value, deepest);
    default:
      return 'Field';
  }
}

function numberFault(number) {
  const fault = Number.isInteger(number) ? 'OutOfRange' : 'NotWhole';
  return Number.isSafeInteger(number) ? null : fault;
}

function partsFault(value, deepest) {
  const parts = Array.isArray(value) ? value : Object.entries(value).flat();
  return deepest === 0 ? 'TooDeep' : firstFault(parts, (part) => messageFault(part, deepest - 1));
}
