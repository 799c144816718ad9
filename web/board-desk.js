// The desk: what one window has beside its board, and what is done there. The address may have behind `?`,
// parted by `&`: `server=`, the server's address; `room=`, the number of a room; `page=`, the name of a page
// in it; and `name=`, the user's.

import { byId, set } from './board-draw.js';
import { change, freshName, put, removal, shapeRecord, spotAt, spotsOf } from './board-shapes.js';
import { Board } from './socket.js';
import { withAllUnder } from './views.js';

// The least and the greatest factor of the camera; how far a copy lies from what was copied.
const [FARTHEST, NEAREST, STEP] = [0.1, 4, 24];

export const asked = new URLSearchParams(location.search);
export const server = asked.get('server') ?? 'ws://127.0.0.1:9001/';
export const pageId = `page:${asked.get('page') ?? 'board'}`;
export const board = new Board(server, Number(asked.get('room')));

let spots = null;
export const desk = {
  tool: 'select',
  color: 'blue',
  selection: new Set(),
  camera: { x: 0, y: 0, z: 1 },
  // Where the pointer is on the page, and the shape into which is typed; or `null`.
  pointer: null,
  typed: null,
  // Where the shapes lie, as `spotsOf` has it.
  get spots() { return spots ??= spotsOf(board, pageId); },
};

board.on('change', () => {
  spots = null;
  use(desk.tool, [...desk.selection].filter((id) => board.document.has(id)));
});

/** Begins a step, which one undo takes back. The page is made first where it isn't there. */
export function begin(name) {
  if (!board.document.has(pageId)) {
    edit([put({ id: pageId, index: 'a1', meta: {}, name: pageId.slice('page:'.length), typeName: 'page' })]);
  }
  board.mark(name);
}

/** Does operations with their ids, if there are any, as one edit; as a step where that has a name. */
export function edit(operations, step = null) {
  if (operations.length > 0) {
    if (step !== null) {
      begin(step);
    }
    board.edit(Object.fromEntries(operations));
  }
}

export const undo = () => board.undo();
export const redo = () => board.redo();

/** Takes a tool, and selects shapes: without their ids those that are selected. */
export const use = (tool, ids = desk.selection) => set({ tool, selection: new Set(ids) });
export const selectAll = () => use('select', desk.spots.keys());
export const release = () => use('select', []);

/** The selected shapes, each `[id, record]`, that hang under no other selected one. */
export function roots() {
  const all = withAllUnder(board.document, desk.selection);
  const selected = [...desk.selection].map((id) => [id, board.document.get(id)]);
  return selected.filter(([, { parentId }]) => !all.has(parentId));
}

/** A point of the page, as what hangs under a shape or the page has it. */
export function within(id, { x, y }) {
  const origin = desk.spots.get(id) ?? { x: 0, y: 0 };
  return { x: Math.round(x - origin.x), y: Math.round(y - origin.y) };
}

/** The frame at a point, but for some shapes and what hangs under them, or the page. */
export function parentAt(point, except = []) {
  const excepted = withAllUnder(board.document, except);
  const frame = spotAt(desk.spots, point, ({ id, type: kind }) => kind === 'frame' && !excepted.has(id));
  return frame?.record.id ?? pageId;
}

/** A new shape of a tool around a point: a frame or an arrow on the page, all else in the frame there. */
export function newShape(tool, point) {
  const parentId = ['arrow', 'frame'].includes(tool) ? pageId : parentAt(point);
  return shapeRecord(tool, desk.color, parentId, within(parentId, point));
}

/** Colors what is selected, and what is drawn from now on. */
export function paint(color) {
  set({ color });
  const colored = [...desk.selection].filter((id) => board.document.get(id).props.color);
  edit(colored.map((id) => change(id, {}, { color })), 'step');
}

/** Moves what is selected. */
export const nudge = (dx, dy) =>
  edit(roots().map(([id, { x, y }]) => change(id, { x: x + dx, y: y + dy })), 'step');

/** Removes what is selected. An arrow that was bound to it stays where it was seen. */
export function remove() {
  const removed = withAllUnder(board.document, desk.selection);
  const isLoose = ({ start, end }) => [start, end].some((seen) => removed.has(seen?.binding?.toId));
  const freed = [...desk.spots].filter(([, spot]) => isLoose(spot)).map(([id, { start, end }]) =>
    change(id, {}, { start: within(id, start), end: within(id, end) }));
  edit([...freed, ...roots().map(([id]) => removal(id))], 'step');
}

let copiedFrom = null;
export function copy() {
  const copied = roots();
  if (copied.length > 0) {
    board.copy(copied.map(([id]) => id));
    copiedFrom = copied[0][1].parentId;
  }
}

/** Pastes what was copied beside it, selects it, and copies it, so that the next one lies beside that. */
export function paste() {
  const parent = board.document.has(copiedFrom) ? copiedFrom : pageId;
  begin('step');
  const ids = board.paste({ dx: STEP, dy: STEP, parent, prefix: freshName() });
  use('select', ids.filter((id) => board.document.get(id).parentId === parent));
  copy();
}

/** The point of the page that is at a point of the window. */
export function pointAt({ clientX, clientY }) {
  const { x, y, z } = desk.camera;
  return { x: Math.round((clientX - x) / z), y: Math.round((clientY - y) / z) };
}

/** Brings the page nearer by a factor, farther by one below 1; a point of the window goes to another one. */
export function look(factor, from, to = from) {
  const { x, y, z } = desk.camera;
  const next = Math.min(NEAREST, Math.max(FARTHEST, z * factor));
  const [dx, dy] = [((from.clientX - x) * next) / z, ((from.clientY - y) * next) / z];
  set({ camera: { x: to.clientX - dx, y: to.clientY - dy, z: next } });
}

/** The middle of the window, between what stands over the page. */
export const middle = () => ({ clientX: innerWidth / 2, clientY: innerHeight / 2 - 20 });
export const zoom = (factor) => look(Number(factor), middle());

/** Shows all shapes within the window, with a margin for what stands over them. */
export function fit() {
  const [{ x, y, z }, box] = [desk.camera, byId('shapes').getBBox()];
  const wanted = Math.min(1, (innerWidth - 60) / (box.width || 1), (innerHeight - 240) / (box.height || 1));
  const [clientX, clientY] = [x + z * (box.x + box.width / 2), y + z * (box.y + box.height / 2)];
  look(wanted / z, { clientX, clientY }, middle());
}
