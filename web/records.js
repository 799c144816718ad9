// The records of a whiteboard at version 3: their types with the fields of each, and which are admitted.

import { firstFault } from './fault.js';
import { isKey } from './keys.js';
import { at, bytesOf, isMap, keysOf, weightOf } from './values.js';

/** The newest migration of each sequence at version 3, as `connect` names them. */
export const SCHEMA = {
  schemaVersion: 2, sequences: { 'rooms.base': 1, 'rooms.binding': 1, 'rooms.shape': 2 },
};

const MOST_WEIGHT = 32_768;
const LONGEST_KEY = 256;

// A check answers the first fault of a value, or `null`. `type` is what stands under `type` beside the value.

const unless = (holds, fault) => (holds ? null : fault);
const ofKind = (isOfKind, check) => (value) => (isOfKind(value) ? check(value) : 'WrongKind');
const isText = (value) => typeof value === 'string';
const ofText = (holds, fault) => ofKind(isText, (value) => unless(holds(value), fault));
const whole = (least, most) =>
  ofKind(Number.isInteger, (value) => unless(least <= value && value <= most, 'OutOfBounds'));

const text = (most) => ofText((value) => bytesOf(value) <= most, 'OutOfBounds');
const oneOf = (...texts) => ofText((value) => texts.includes(value), 'NotListed');
const idOf = (...types) => ofText((value) => types.includes(typeOf(value)), 'BadId');
const nullable = (check) => (value) => (value === null ? null : check(value));
const listOf = (check) => ofKind(Array.isArray, (value) => firstFault(value, (item) => check(item)));

// A map with exactly these keys: a missing one is told first, then one too many, then a field at fault.
function object(checks) {
  const wanted = keysOf(checks);
  return ofKind(isMap, (value) => {
    if (!wanted.every((field) => Object.hasOwn(value, field))) {
      return 'Missing';
    }
    if (Object.keys(value).length > wanted.length) {
      return 'Extra';
    }
    return firstFault(wanted, (field) => checks[field](value[field], at(value, 'type')));
  });
}

const byType = (checks) =>
  (value, type) => (isText(type) && Object.hasOwn(checks, type) ? checks[type](value) : 'NotListed');

const number = whole(Number.MIN_SAFE_INTEGER, Number.MAX_SAFE_INTEGER);
const extent = whole(0, Number.MAX_SAFE_INTEGER);
const short = text(256);
const long = text(8_192);
const truth = ofKind((value) => typeof value === 'boolean', () => null);
const dict = ofKind(isMap, () => null);
const key = ofText((value) => isKey(value) && value.length <= LONGEST_KEY, 'BadKey');
const point = object({ x: number, y: number });
const anchor = object({ x: whole(0, 1000), y: whole(0, 1000) });

const color = oneOf(
  'black', 'grey', 'light-violet', 'violet', 'blue', 'light-blue', 'yellow', 'orange', 'green', 'light-green',
  'light-red', 'red', 'white',
);
const form = oneOf('rectangle', 'ellipse', 'triangle', 'diamond');
const dash = oneOf('draw', 'solid', 'dashed', 'dotted');
const fill = oneOf('none', 'semi', 'solid', 'pattern');
const size = oneOf('s', 'm', 'l', 'xl');

const SHAPE_PROPS = {
  arrow: object({ start: point, end: point, bend: number, color, size, text: long }),
  draw: object({ points: listOf(point), isClosed: truth, color, size }),
  frame: object({ w: extent, h: extent, name: short }),
  geo: object({ geo: form, w: extent, h: extent, color, fill, dash, size, text: long }),
  group: object({}),
  image: object({ w: extent, h: extent, assetId: nullable(idOf('asset')) }),
  note: object({ text: long, color, size }),
  text: object({ text: long, w: extent, h: extent, autoSize: truth, color, size }),
};

// A type of records: its scope, and the fields that its records have beside those of every record.
const type = (name, scope, fields) =>
  [name, { scope, check: object({ id: idOf(name), typeName: oneOf(name), meta: dict, ...fields }) }];

const TYPES = new Map([
  type('document', 'document', { name: short, gridSize: whole(1, 1000) }),
  type('page', 'document', { name: short, index: key }),
  type('shape', 'document', {
    type: oneOf(...Object.keys(SHAPE_PROPS)), x: number, y: number, rotation: number, index: key,
    parentId: idOf('page', 'shape'), isLocked: truth, opacity: whole(0, 100), props: byType(SHAPE_PROPS),
  }),
  type('asset', 'document', {
    type: oneOf('image'),
    props: object({ w: extent, h: extent, name: short, src: nullable(long), mimeType: nullable(short) }),
  }),
  type('binding', 'document', {
    type: oneOf('arrow'), fromId: idOf('shape'), toId: idOf('shape'),
    props: object({ terminal: oneOf('start', 'end'), anchor, isExact: truth }),
  }),
  type('camera', 'session', { x: number, y: number, z: whole(1, 100_000) }),
  type('instance', 'session', { currentPageId: idOf('page') }),
  type('instance_presence', 'presence', {
    userName: short, color: short, currentPageId: idOf('page'), cursor: nullable(point),
    selectedShapeIds: listOf(idOf('shape')),
  }),
]);

/** The name of the type in an id, which stands before its only `:`; `null` where the text is no id. */
export const typeOf = (id) => /^([^:]+):[A-Za-z0-9_-]{1,64}$/.exec(id)?.[1] ?? null;

/** The scope of the records under an id, `document`, `session` or `presence`; `null` without a known type. */
export const scopeOf = (id) => TYPES.get(typeOf(id))?.scope ?? null;

/** Why a record isn't admitted: `BadId`, `UnknownType`, a fault of a field, or `TooHeavy`; else `null`. */
export function admissionFault(id, record) {
  const name = typeOf(id);
  if (name === null || at(record, 'id') !== id || at(record, 'typeName') !== name) {
    return 'BadId';
  }
  if (!TYPES.has(name)) {
    return 'UnknownType';
  }
  return TYPES.get(name).check(record) ?? unless(weightOf(record) <= MOST_WEIGHT, 'TooHeavy');
}
