// What views of a document tell, and which records meet a query. Records are a `Map` by id.

import { typeOf } from './records.js';
import { at, byBytes, groupedBy, isSame, numberAt, textAt } from './values.js';

// How many levels are looked at below a shape or page.
const LEVELS = 32;
// How many shapes a tree lists, and how many children count for a box.
const MOST_LISTED = 1_000_000;

/** The order of siblings, each `[id, record]`: by index, then by id. */
export const byIndex = ([id, record], [otherId, other]) =>
  byBytes(textAt(record, 'index'), textAt(other, 'index')) || byBytes(id, otherId);

// The shapes by their parents, in lists of siblings in order.
function childrenByParent(records) {
  const shapes = [...records].filter(([id]) => typeOf(id) === 'shape');
  return groupedBy(shapes.sort(byIndex), ([, record]) => textAt(record, 'parentId'));
}

/** The greatest index among the children of a parent, `null` where it has none. */
export function greatestIndex(records, parent) {
  const [, last] = childrenByParent(records).get(parent)?.at(-1) ?? [];
  return last === undefined ? null : textAt(last, 'index');
}

/** Some ids, and those of all shapes that hang under them, as a `Set`. */
export function withAllUnder(records, ids) {
  const parents = childrenByParent(records);
  const all = new Set(ids);
  for (const id of all) {
    (parents.get(id) ?? []).forEach(([child]) => all.add(child));
  }
  return all;
}

/** The ids of a binding's two ends. */
export const endsOf = (binding) => [textAt(binding, 'fromId'), textAt(binding, 'toId')];

/** The ids of the records of a type that are as wanted, rising by bytes. */
export function idsWhere(records, type, isWanted) {
  const found = [...records].filter(([id, record]) => typeOf(id) === type && isWanted(record));
  return found.map(([id]) => id).sort(byBytes);
}

const VIEWS = {
  box: (records, id) => boxTold(cornersOf(records, childrenByParent(records), id, LEVELS)),
  tree: (records, id) => [...idsUnder(childrenByParent(records), id, LEVELS)].slice(0, MOST_LISTED),
  count: (records, id) => VIEWS.tree(records, id).length,
  bound: (records, id) => idsWhere(records, 'binding', (binding) => endsOf(binding).includes(id)),
};

/** What a view of the records tells: `{box: id}`, `{tree: id}`, `{bound: id}` or `{count: id}`. */
export function told(records, view) {
  const [[kind, id]] = Object.entries(view);
  return VIEWS[kind](records, id);
}

// The ids of the shapes under one, each before those under it.
function* idsUnder(parents, id, levels) {
  for (const [child] of levels === 0 ? [] : parents.get(id) ?? []) {
    yield child;
    yield* idsUnder(parents, child, levels - 1);
  }
}

// The corners of the least box around a shape and what hangs under it, from where its parent has its 0, 0;
// none where it has no extent. Points are `[x, y]` of `BigInt`s.
function cornersOf(records, parents, id, levels) {
  const shape = records.get(id);
  if (typeOf(id) !== 'shape' || shape === undefined) {
    return [];
  }
  const children = levels === 0 ? [] : (parents.get(id) ?? []).slice(0, MOST_LISTED);
  const under = children.flatMap(([child]) => cornersOf(records, parents, child, levels - 1));
  const [left, top] = pointOf(shape);
  const own = OWN_POINTS[at(shape, 'type')]?.(at(shape, 'props')) ?? [];
  return cornersAround([...own, ...under]).map(([x, y]) => [left + x, top + y]);
}

const pointOf = (value) => [BigInt(numberAt(value, 'x')), BigInt(numberAt(value, 'y'))];
const extent = (w, h) => [{}, { x: Math.max(w, 0), y: Math.max(h, 0) }].map(pointOf);
const extentOf = (props) => extent(numberAt(props, 'w'), numberAt(props, 'h'));

// The points that the box of a shape itself holds, by its type; none of another type.
const OWN_POINTS = {
  arrow: (props) => [at(props, 'start'), at(props, 'end')].map(pointOf),
  draw: (props) => (Array.isArray(at(props, 'points')) ? props.points : []).map(pointOf),
  frame: extentOf,
  geo: extentOf,
  image: extentOf,
  note: () => extent(200, 200),
  text: extentOf,
};

// The upper left and the lower right corner of the least box around points, if there are any.
function cornersAround(points) {
  const least = (one, other) => (one < other ? one : other);
  const greatest = (one, other) => (one > other ? one : other);
  const corner = (join) => [0, 1].map((axis) => points.map((point) => point[axis]).reduce(join));
  return points.length === 0 ? [] : [corner(least), corner(greatest)];
}

// What a view tells of a box: numbers where they are exact, else `BigInt`s; `null` of none.
function boxTold(corners) {
  if (corners.length === 0) {
    return null;
  }
  const exact = (big) => (Number.isSafeInteger(Number(big)) ? Number(big) : big);
  const [[x, y], [right, bottom]] = corners;
  return { h: exact(bottom - y), w: exact(right - x), x: exact(x), y: exact(y) };
}

const QUERIES = {
  eq: (record, key, wanted) => isSame(at(record, key), wanted),
  neq: (record, key, wanted) => at(record, key) !== undefined && !isSame(at(record, key), wanted),
  gt: (record, key, least) => typeof at(record, key) === 'number' && at(record, key) > least,
  and: (record, queries) => queries.every((query) => meets(record, query)),
  or: (record, queries) => queries.some((query) => meets(record, query)),
  not: (record, query) => !meets(record, query),
};

const meets = (record, [kind, ...what]) => QUERIES[kind](record, ...what);

/** The ids of the records of a type that meet a query, rising by bytes. */
export const queried = (records, type, query) => idsWhere(records, type, (record) => meets(record, query));
