// The records of a board, as `docs/FORMATS.md` has them at version 3, and where they lie on its page. All
// numbers in what is written are whole. Where the ends of a bound arrow are seen is computed.

import { groupedBy } from './values.js';

/** The two ends of an arrow. */
export const TERMINALS = ['start', 'end'];
// How far a bound arrow stays from an outline.
const GAP = 6;

// The type of what each tool draws, and its `props` but for the color.
const box = (geo) => ['geo', { dash: 'solid', fill: 'semi', geo, h: 120, size: 'm', text: '', w: 200 }];
const DRAWN = {
  arrow: ['arrow', { bend: 0, end: { x: 200, y: 0 }, size: 'm', start: { x: 0, y: 0 }, text: '' }],
  ellipse: box('ellipse'),
  frame: ['frame', { h: 320, name: 'Frame', w: 480 }],
  note: ['note', { size: 'm', text: '' }],
  rectangle: box('rectangle'),
};

/** A name that nobody else draws: at most 30 digits. */
export const freshName = () => crypto.getRandomValues(new Uint32Array(3)).join('');

const puts = (fields) => Object.fromEntries(Object.entries(fields).map(([key, to]) => [key, ['put', to]]));

// Operations with their ids: that put a record, remove one, put fields of a shape and of its `props`.
export const put = (record) => [record.id, ['put', record]];
export const removal = (id) => [id, ['remove']];
export const change = (id, fields, props = {}) =>
  [id, ['patch', { ...puts(fields), props: ['patch', puts(props)] }]];

const extentOf = ({ type, props: { w = 0, h = 0 } }) => (type === 'note' ? { w: 200, h: 200 } : { w, h });

/** A new shape of a tool around a point, without an index: the client gives it one in front of the others. */
export function shapeRecord(tool, color, parentId, { x, y }) {
  const [type, own] = DRAWN[tool];
  const props = type === 'frame' ? own : { ...own, color };
  const { w, h } = extentOf({ type, props });
  return {
    id: `shape:${freshName()}`, isLocked: false, meta: {}, opacity: 100, parentId, props, rotation: 0, type,
    typeName: 'shape', x: x - w / 2, y: y - h / 2,
  };
}

/** A binding of an arrow's end to the shape of a spot, at a point in it; near its middle, to the middle. */
export function bindingRecord(id, arrow, terminal, { record, x, y, w, h }, point) {
  const share = (at, side) => (Math.abs(at / side - 0.5) < 0.2 ? 500 : Math.round((1000 * at) / side));
  const props = { anchor: { x: share(point.x - x, w), y: share(point.y - y, h) }, isExact: false, terminal };
  return { fromId: arrow, id, meta: {}, props, toId: record.id, type: 'arrow', typeName: 'binding' };
}

/** Where the shapes of a page lie, by id as they are drawn; of an arrow also where its ends are seen. */
export function spotsOf(board, pageId) {
  const spots = new Map();
  for (const id of board.view({ tree: pageId })) {
    const record = board.document.get(id);
    const { x, y } = spots.get(record.parentId) ?? { x: 0, y: 0 };
    spots.set(id, { record, x: x + record.x, y: y + record.y, ...extentOf(record) });
  }
  const bindings = [...board.document.values()].filter(({ typeName }) => typeName === 'binding');
  const byArrow = groupedBy(bindings, ({ fromId }) => fromId);
  const arrows = [...spots].filter(([, { record }]) => record.type === 'arrow');
  arrows.forEach(([id, spot]) => Object.assign(spot, endsOf(spot, byArrow.get(id) ?? [], spots)));
  return spots;
}

// The ends of an arrow as they are seen: a bound one on its shape's outline, on the way to the other end.
function endsOf({ record, x, y }, bindings, spots) {
  const [start, end] = TERMINALS.map((terminal) => {
    const binding = bindings.find(({ props }) => props.terminal === terminal);
    const target = spots.get(binding?.toId);
    const at = target ? binding.props.anchor : record.props[terminal];
    const { x: left, y: top, w, h } = target ?? { x, y, w: 1000, h: 1000 };
    return { binding, target, x: left + (at.x * w) / 1000, y: top + (at.y * h) / 1000 };
  });
  return { start: outlineAt(start, end), end: outlineAt(end, start) };
}

// Where the way from a point of a shape to another point leaves the shape; the point itself where it doesn't.
function outlineAt({ binding, target, x, y }, to) {
  const at = (share) => ({ binding, x: x + share * (to.x - x), y: y + share * (to.y - y) });
  let [inside, outside] = [0, target && !isIn(target, to, GAP) ? 1 : 0];
  for (let halves = 0; outside > 0 && halves < 20; halves += 1) {
    const middle = (inside + outside) / 2;
    [inside, outside] = isIn(target, at(middle), GAP) ? [middle, outside] : [inside, middle];
  }
  return at(outside);
}

// Whether a point lies in a shape, or nearer to it than a gap.
function isIn({ record, x, y, w, h }, point, gap = 0) {
  const across = (point.x - x - w / 2) / (w / 2 + gap);
  const down = (point.y - y - h / 2) / (h / 2 + gap);
  return (record.props.geo === 'ellipse' ? Math.hypot : Math.max)(Math.abs(across), Math.abs(down)) <= 1;
}

/** The spot in front at a point, of what isn't an arrow and whose record meets a condition. */
export const spotAt = (spots, point, meets = () => true) => [...spots.values()].findLast((spot) =>
  spot.record.type !== 'arrow' && isIn(spot, point) && meets(spot.record));
