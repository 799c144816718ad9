// What pointers do at the desk. A gesture is what one press does until it is let go. Where that moves, `drag`
// is called if it is there, what it answers at each move, and `end`; else `click`. All get the point of the
// page. What a gesture edits is taken back by one undo.

import {
  begin, board, desk, edit, look, middle, newShape, parentAt, pointAt, roots, use, within,
} from './board-desk.js';
import { byId } from './board-draw.js';
import { bindingRecord, change, freshName, put, removal, spotAt, TERMINALS } from './board-shapes.js';
import { type } from './board-text.js';

// How far in the window a press goes before it is a drag; the least side of a shape.
const [SLACK, LEAST_SIDE] = [4, 8];
// The last events of the pointers that are down, by their ids; the gesture, with `press`, which began it.
const fingers = new Map();
let gesture = null;

const apart = (one, other) => Math.hypot(one.clientX - other.clientX, one.clientY - other.clientY);

const EVENTS = {
  pointerdown(event) {
    document.activeElement.blur();
    byId('canvas').setPointerCapture(event.pointerId);
    cancel();
    fingers.set(event.pointerId, event);
    gesture = { ...gestureOf(event, pointAt(event)), press: event };
  },
  pointermove(event) {
    const before = fingers.get(event.pointerId);
    desk.pointer = pointAt(event);
    if (before && gesture?.drag && (gesture.move || apart(gesture.press, event) >= SLACK)) {
      gesture.move ??= gesture.drag();
      gesture.move(desk.pointer, before, event);
      fingers.set(event.pointerId, event);
    }
  },
  pointerup(event) {
    const done = gesture?.move ? gesture.end : gesture?.click;
    fingers.delete(event.pointerId);
    gesture = null;
    done?.(pointAt(event));
  },
  pointercancel: cancel,
  pointerleave: () => (desk.pointer = null),
  // A press with a mouse doesn't show that the board has the keys.
  mousedown: (event) => event.preventDefault(),
  dblclick: (event) => type(spotAt(desk.spots, pointAt(event))?.record.id),
  wheel(event) {
    const { clientX, clientY, ctrlKey, deltaX, deltaY, metaKey } = event;
    const moved = { clientX: clientX - deltaX, clientY: clientY - deltaY };
    event.preventDefault();
    look(...(ctrlKey || metaKey ? [Math.exp(-deltaY / 200), event] : [1, event, moved]));
  },
};

// The field takes what happens over it.
for (const [name, handle] of Object.entries(EVENTS)) {
  byId('canvas').addEventListener(name, (event) => event.target.matches('textarea') || handle(event));
}

/** Gives the gesture up, with all that it edited; and a pointer, where it is one's event. */
export function cancel({ pointerId } = {}) {
  const { isLooking, move } = gesture ?? {};
  fingers.delete(pointerId);
  gesture = null;
  if (move && !isLooking) {
    board.bail('gesture');
  }
}

/** Types into what is selected, or places in the middle of the window what the tool draws. */
export const enter = () =>
  (desk.tool === 'select' ? type([...desk.selection][0]) : place(desk.tool, pointAt(middle())));

// Puts a shape of a tool around a point, and types into a note.
function place(tool, point) {
  const shape = newShape(tool, point);
  edit([put(shape)], 'step');
  use('select', [shape.id]);
  if (tool === 'note') {
    type(shape.id);
  }
}

// The gesture that a press begins: with a tool, on a shape, on a handle of the selected one, or on the page.
function gestureOf({ button, shiftKey, target }, from) {
  const { handle } = target.dataset;
  const id = target.closest('[data-id]')?.dataset.id;
  if (fingers.size > 1 || button === 1 || (desk.tool === 'select' && !id && !handle)) {
    return looking();
  }
  begin('gesture');
  if (desk.tool !== 'select') {
    return drawing(desk.tool, from);
  }
  const [selected] = desk.selection;
  return id ? dragging(id, from, shiftKey) : { drag: () => handled(selected, handle) };
}

// Draws a shape from a point on: an arrow from end to end, others by a corner. A note is placed by a click.
function drawing(tool, from) {
  const shape = newShape(tool, from);
  const [first, last] = tool === 'arrow' ? TERMINALS : ['corner', 'corner'];
  const drag = () => {
    edit([put(shape)]);
    handled(shape.id, first, from)(from);
    return handled(shape.id, last, from);
  };
  const drawn = { drag, end: () => use('select', [shape.id]) };
  return { click: (point) => place(tool, point), ...(tool === 'note' ? {} : drawn) };
}

// What moves a handle of a shape to a point: an end of an arrow, or the corner across from one.
const handled = (id, handle, corner = desk.spots.get(id)) =>
  (handle === 'corner' ? stretched(id, corner) : bent(id, handle));
const stretched = (id, corner) => ({ x, y }) => {
  const upperLeft = { x: Math.min(x, corner.x), y: Math.min(y, corner.y) };
  const [w, h] = [x - corner.x, y - corner.y].map((side) => Math.max(LEAST_SIDE, Math.abs(side)));
  edit([change(id, within(board.document.get(id)?.parentId, upperLeft), { w, h })]);
};

// The end is bound to the shape at the point, unless the other one is.
function bent(arrow, terminal) {
  const { start, end } = desk.spots.get(arrow);
  const [own, other] = terminal === 'start' ? [start, end] : [end, start];
  const id = own.binding?.id ?? `binding:${freshName()}`;
  return (point) => {
    const target = spotAt(desk.spots, point, (record) => record.id !== other.binding?.toId);
    const loosened = board.document.has(id) ? [removal(id)] : [];
    const bound = target ? [put(bindingRecord(id, arrow, terminal, target, point))] : loosened;
    edit([change(arrow, {}, { [terminal]: within(arrow, point) }), ...bound]);
  };
}

// Drags what is selected, the shape `id` with it. Where it is let go, it hangs in the frame under its middle.
function dragging(id, from, more) {
  const wasSelected = desk.selection.has(id);
  const others = more ? [...desk.selection].filter((other) => other !== id) : [];
  use('select', wasSelected ? desk.selection : [...others, id]);
  const begun = roots();
  return {
    drag: () => ({ x, y }) => {
      const left = begun.filter(([root]) => board.document.has(root));
      edit(left.map(([root, at]) => change(root, { x: at.x + x - from.x, y: at.y + y - from.y })));
    },
    end: () => edit(roots().flatMap(rehung)),
    click: () => use('select', wasSelected && more ? others : [...others, id]),
  };
}

// What hangs a shape into the frame under its middle, or on the page; an arrow stays where it hangs.
function rehung([id, { parentId: before, type: kind }]) {
  const { x, y, w, h } = desk.spots.get(id);
  const parentId = kind === 'arrow' ? before : parentAt({ x: x + w / 2, y: y + h / 2 }, desk.selection);
  return parentId === before ? [] : [change(id, { parentId, ...within(parentId, { x, y }) })];
}

// Moves what is seen with a finger, and brings it nearer where a second one is down.
function looking() {
  const move = (_, from, to) => {
    const other = [...fingers.values()].find((finger) => finger !== from);
    look(other ? apart(other, to) / (apart(other, from) || 1) : 1, from, to);
  };
  return { isLooking: true, click: () => use('select', []), drag: () => move };
}
