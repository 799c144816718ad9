// Operations on records and on the values in them: what they make of a record, and what undoes them.
//
// A diff is a map from ids to `['put', record]`, `['patch', patch]` or `['remove']`; a patch a map from keys
// to `['put', value]`, `['patch', patch]`, `['append', list or text, offset]` or `['delete']`. In what is for
// both, `last` is the kind that takes away: `remove` or `delete`.

import { admissionFault } from './records.js';
import { at, bytesOf, changedAt, isMap, setIn } from './values.js';

/** Whether the value is a diff. */
export const isDiff = (value) => areOperations(value, 'remove');

const areOperations = (value, last) =>
  isMap(value) && Object.values(value).every((operation) => isOperation(operation, last));

function isOperation(value, last) {
  const [kind, what, offset] = Array.isArray(value) ? value : [];
  switch (kind) {
    case 'put':
      return value.length === 2;
    case 'patch':
      return value.length === 2 && areOperations(what, 'delete');
    case 'append':
      return last === 'delete' && value.length === 3 && (Array.isArray(what) || typeof what === 'string')
        && Number.isInteger(offset) && offset >= 0 && offset < 2 ** 32;
    default:
      return kind === last && value.length === 1;
  }
}

/** What an operation makes of a record or of a value, which is `undefined` where there is none. */
export function afterOperation(value, [kind, what, offset]) {
  switch (kind) {
    case 'put':
      return what;
    case 'patch':
      return isMap(value) ? changedAt(value, what, afterOperation) : value;
    case 'append':
      return appends(value, what, offset) ? value.concat(what) : value;
    default:
      return undefined;
  }
}

// Whether an append takes effect: on a list of so many values, or on a text of so many bytes.
function appends(value, what, offset) {
  return Array.isArray(what)
    ? Array.isArray(value) && value.length === offset
    : typeof value === 'string' && bytesOf(value) === offset;
}

/** Does to records, a `Map` by id, the operations of a diff that act; answers the diff that undoes these. */
export function step(records, diff) {
  const back = new Map();
  for (const [id, operation] of Object.entries(diff)) {
    const record = records.get(id);
    if (acts(id, record, operation)) {
      back.set(id, inverse(record, operation, 'remove'));
      setIn(records, id, afterOperation(record, operation));
    }
  }
  return Object.fromEntries(back);
}

// Whether an operation acts on a record: a patch where what it leaves is admitted.
function acts(id, record, operation) {
  const [kind] = operation;
  const isAdmitted = () => admissionFault(id, afterOperation(record, operation)) === null;
  return kind === 'put' || (record !== undefined && (kind === 'remove' || isAdmitted()));
}

// The operation that undoes one on a record or on a value; `undefined` where that takes no effect.
function inverse(value, [kind, what, offset], last) {
  if (value === undefined) {
    return kind === 'put' ? [last] : undefined;
  }
  switch (kind) {
    case 'patch':
      return isMap(value) ? ['patch', patchInverse(value, what)] : undefined;
    case 'append':
      return appends(value, what, offset) ? ['put', value] : undefined;
    default:
      return ['put', value];
  }
}

// The patch that brings a map back. A key at which nothing took effect gets nothing.
const patchInverse = (map, patch) =>
  changedAt({}, patch, (_, operation, key) => inverse(at(map, key), operation, 'delete'));

/** The one diff that does an inverse, and then an older one. An inverse has no append. */
export const joined = (newer, older) => changedAt(newer, older, both);

// The operation that does both in turn, on a record or on a value; there may be no first one.
function both(first, second) {
  if (first === undefined || second[0] !== 'patch') {
    return second;
  }
  switch (first[0]) {
    case 'put':
      return ['put', afterOperation(first[1], second)];
    case 'patch':
      return ['patch', joined(first[1], second[1])];
    default:
      return first;
  }
}
