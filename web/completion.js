// What an edit is completed to: new shapes get their index, and what hangs on a removed record goes with it.

import { check, checkEach } from './fault.js';
import { between } from './keys.js';
import { afterOperation } from './operations.js';
import { admissionFault, scopeOf, typeOf } from './records.js';
import { at, isMap, keysOf, setIn, textAt, withFields } from './values.js';
import { endsOf, greatestIndex, idsWhere, withAllUnder } from './views.js';

const MOST_OPERATIONS = 8_192;

/**
 * The completed diff, over the records of the document, a `Map` by id.
 * @throws {EditFault} the first that applies, of several ids the least: `TooMany`, `WrongScope`, `NoRecord`,
 *     `Invalid`, `NoKey`, `LastPage`, `NoParent`, `UnderItself`, `NoEnd`
 */
export function completed(records, wanted) {
  const ids = keysOf(wanted);
  check(ids.length <= MOST_OPERATIONS, 'TooMany');
  checkEach(ids, 'WrongScope', (id) => scopeOf(id) === 'document');
  checkEach(ids, 'NoRecord', (id) => wanted[id][0] === 'put' || records.has(id));
  const after = new After(records);
  const unplaced = new Set(ids.filter((id) => !records.has(id) && isUnplaced(id, wanted[id])));
  for (const id of ids.filter((other) => !unplaced.has(other))) {
    after.put(id, afterOperation(records.get(id), wanted[id]));
  }
  placeEach(after, unplaced, wanted);
  const diff = new Map(ids.map((id) => [id, unplaced.has(id) ? ['put', after.get(id)] : wanted[id]]));
  for (const id of removedWith(records, after, ids.filter((other) => wanted[other][0] === 'remove'))) {
    after.put(id, undefined);
    diff.set(id, ['remove']);
  }
  checkWhole(after, ids);
  check(diff.size <= MOST_OPERATIONS, 'TooMany');
  return Object.fromEntries(diff);
}

// The records after an edit, over those before it. Only where all are needed they are copied.
class After {
  #changed = new Map();

  constructor(before) { this.before = before; }

  get(id) { return this.#changed.has(id) ? this.#changed.get(id) : this.before.get(id); }
  has(id) { return this.get(id) !== undefined; }

  // Sets a record, which must be admitted, or takes it away.
  put(id, record) {
    const why = record === undefined ? null : admissionFault(id, record);
    check(why === null, 'Invalid', id, why);
    this.#changed.set(id, record);
  }

  all() {
    const all = new Map(this.before);
    this.#changed.forEach((record, id) => setIn(all, id, record));
    return all;
  }
}

// Whether an operation puts a shape without an index.
const isUnplaced = (id, [kind, record]) =>
  kind === 'put' && typeOf(id) === 'shape' && isMap(record) && at(record, 'index') === undefined;

// Puts the shapes that have no index, each behind the children that its parent has by then.
function placeEach(after, ids, wanted) {
  const greatest = new Map();
  for (const id of ids) {
    const parent = textAt(wanted[id][1], 'parentId');
    const index = between(greatest.get(parent) ?? greatestIndex(after.all(), parent), null);
    after.put(id, withFields(wanted[id][1], { index }));
    greatest.set(parent, index);
  }
}

// The removed ids, with the shapes of before that hang under one of them, and the bindings of before at one.
function removedWith(records, after, ids) {
  const kept = new Map(ids.length === 0 ? [] : [...after.all()].filter(([id]) => records.has(id)));
  const removed = withAllUnder(kept, ids);
  const isLoose = (binding) => endsOf(binding).some((end) => removed.has(end));
  return [...removed, ...idsWhere(kept, 'binding', isLoose)];
}

// Refuses to leave no page where there was one, and what was written without its parent or an end.
function checkWhole(after, ids) {
  const has = (id, ...types) => after.has(id) && types.includes(typeOf(id));
  const keepsPages = ids.every((id) => typeOf(id) !== 'page' || after.has(id));
  check(keepsPages || [...after.all().keys()].some((id) => typeOf(id) === 'page'), 'LastPage');
  const shapes = ids.filter((id) => has(id, 'shape'));
  checkEach(shapes, 'NoParent', (id) => has(parentOf(after, id), 'page', 'shape'));
  checkEach(shapes, 'UnderItself', (id) => !isUnderItself(after, id));
  const bindings = ids.filter((id) => has(id, 'binding'));
  checkEach(bindings, 'NoEnd', (id) => endsOf(after.get(id)).every((end) => has(end, 'shape')));
}

const parentOf = (after, id) => textAt(after.get(id), 'parentId');

// Whether a shape stands on its own chain of parents.
function isUnderItself(after, id) {
  const met = new Set();
  let parent = parentOf(after, id);
  while (parent !== id && typeOf(parent) === 'shape' && after.has(parent) && !met.has(parent)) {
    met.add(parent);
    parent = parentOf(after, parent);
  }
  return parent === id;
}
