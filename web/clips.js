// Copy and paste: shapes with all that hangs under them, and the bindings between these.

import { check, checkEach } from './fault.js';
import { severalBehind } from './keys.js';
import { typeOf } from './records.js';
import { byBytes, numberAt, textAt, withFields } from './values.js';
import { byIndex, endsOf, greatestIndex, idsWhere, withAllUnder } from './views.js';

const MOST_COPIED = 4_096;

/** What was copied, as it was then: shapes and bindings, each a list of `[id, record]` that rises by id. */
export class Clip {
  /**
   * A copy of some shapes of the records, a `Map` by id.
   * @throws {EditFault} `NoShape` or `Doubled` of the first id at fault, or `TooMany`
   */
  constructor(records, ids) {
    checkEach(ids, 'NoShape', (id) => typeOf(id) === 'shape' && records.has(id));
    checkEach(ids, 'Doubled', (id, place) => ids.indexOf(id) === place);
    const copied = withAllUnder(records, ids);
    const isBetween = (binding) => endsOf(binding).every((end) => copied.has(end));
    const entries = (found) => found.map((id) => [id, records.get(id)]);
    this.shapes = entries([...copied].sort(byBytes));
    this.bindings = entries(idsWhere(records, 'binding', isBetween));
    check(this.shapes.length <= MOST_COPIED && this.bindings.length <= MOST_COPIED, 'TooMany');
  }

  /**
   * The diff that pastes it into the records under a parent, with new ids of the prefix.
   * @throws {EditFault} `Taken` of the least new id that is there, or `NoKey`
   */
  pasted(records, { dx, dy, parent, prefix }) {
    const [bindings, shapes] = [this.bindings, this.shapes];
    const newIds = new Map([...named(bindings, 'binding', prefix), ...named(shapes, 'shape', prefix)]);
    checkEach([...newIds.values()], 'Taken', (id) => !records.has(id));
    const tops = shapes.filter(([, shape]) => !newIds.has(textAt(shape, 'parentId'))).sort(byIndex);
    const keys = severalBehind(greatestIndex(records, parent), tops.length);
    const moved = (shape) => ({ x: numberAt(shape, 'x') + dx, y: numberAt(shape, 'y') + dy });
    const placesOfTops = new Map(tops.map(([id, shape], place) =>
      [id, { index: keys[place], parentId: parent, ...moved(shape) }]));
    const placeOf = ([id, { parentId }]) => placesOfTops.get(id) ?? { parentId: newIds.get(parentId) };
    const newEnds = ([, { fromId, toId }]) => ({ fromId: newIds.get(fromId), toId: newIds.get(toId) });
    const put = (fieldsOf) => ([id, record]) => {
      const fields = { id: newIds.get(id), ...fieldsOf([id, record]) };
      return [fields.id, ['put', withFields(record, fields)]];
    };
    return Object.fromEntries([...bindings.map(put(newEnds)), ...shapes.map(put(placeOf))]);
  }
}

// The new id of each: its type, the prefix, and its place in four digits.
const named = (entries, type, prefix) =>
  entries.map(([id], place) => [id, `${type}:${prefix}${String(place).padStart(4, '0')}`]);
