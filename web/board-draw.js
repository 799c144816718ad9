// Draws the desk: its shapes as SVG, what is selected, the cursors of others, and what buttons show of it.

import { board, desk, pageId } from './board-desk.js';

export const byId = (id) => document.getElementById(id);
/** The classes of what a text is in: a long one is drawn small. */
export const wordsClass = (text) => (text.length < 90 ? 'words' : 'words long');

/** Gives a node attributes and properties of style, where they are others: all would be computed anew. */
export function dress(node, attributes) {
  for (const [key, value] of Object.entries(attributes)) {
    if (key.startsWith('--')) {
      node.style.setProperty(key, value);
    } else if (node.getAttribute(key) !== String(value)) {
      node.setAttribute(key, value);
    }
  }
  return node;
}

/** An element with attributes and what is in it: of SVG, or one of few of HTML. */
export function element(name, attributes = {}, ...inner) {
  const space = ['div', 'li', 'span'].includes(name) ? '1999/xhtml' : '2000/svg';
  const made = dress(document.createElementNS(`http://www.w3.org/${space}`, name), attributes);
  made.append(...inner);
  return made;
}

/** Tells the user a word, for as long as its animation goes. */
export const tell = (word) => byId('toast').replaceChildren(element('span', { class: 'panel' }, word));
/** The presences of others on the page. */
export const others = () => [...board.others.values()].filter((other) => other.currentPageId === pageId);

let frame = null;
/** Sets what the desk has, and draws it before the next frame. */
export function set(fields = {}) {
  Object.assign(desk, fields);
  frame ??= requestAnimationFrame(draw);
}

function draw() {
  const { camera: { x, y, z }, selection, spots, tool } = desk;
  frame = null;
  dress(byId('canvas'), { 'data-tool': tool, '--zoom': z, '--left': `${x}px`, '--top': `${y}px` });
  byId('zoom').textContent = `${Math.round(100 * z)}%`;
  drawShapes();
  byId('marks').replaceChildren(...marks());
  const colors = [...selection].map((id) => spots.get(id)?.record.props.color);
  const color = ['select', 'frame'].includes(tool) ? colors.find(Boolean) : desk.color;
  byId('colors').hidden = color === undefined;
  for (const button of document.querySelectorAll('[data-do=use], [data-do=paint]')) {
    button.ariaPressed = [tool, color].includes(button.value);
  }
}

function drawShapes() {
  const [{ children }, wanted] = [byId('shapes'), [...desk.spots].map(nodeOf)];
  if (wanted.length !== children.length || wanted.some((node, place) => node !== children[place])) {
    byId('shapes').replaceChildren(...wanted);
  }
}

// The node of a shape, filled anew where `record` in it is another one, or lies between others.
function nodeOf([id, spot]) {
  const node = byId(id) ?? element('g', { id, 'data-id': id });
  const { type, opacity, rotation, props: { color = 'grey', size, fill, dash } } = spot.record;
  if (node.record !== spot.record || type === 'arrow') {
    node.record = spot.record;
    node.replaceChildren(...partsOf(spot));
  }
  const typed = id === desk.typed ? 'typed' : '';
  return dress(node, {
    class: `shape ${type} ${color} size-${size} fill-${fill} dash-${dash} ${typed}`,
    opacity: opacity / 100,
    transform: `translate(${spot.x} ${spot.y}) rotate(${rotation})`,
  });
}

// What a shape is drawn of, around its own 0, 0. For what there is no tool that is its extent with its text.
function partsOf({ record: { type, props }, x, y, w, h, start, end }) {
  if (type === 'arrow') {
    // The wide line isn't seen: it is there to be met.
    return ['line', 'reach'].map((name) => element('line', { class: name, ...between(start, end, x, y) }));
  }
  const { geo, name = '', text = '' } = props;
  const body = geo === 'ellipse'
    ? element('ellipse', { class: 'body', cx: w / 2, cy: h / 2, rx: w / 2, ry: h / 2 })
    : element('rect', { class: 'body', width: w, height: h, rx: 6 });
  const words = element('div', { class: wordsClass(text) }, element('span', {}, text));
  const label = element('text', { class: 'label', y: -8 }, name);
  return [body, text === '' ? label : element('foreignObject', { width: w, height: h }, words)];
}

// The marks over the shapes: what others and the user selected, handles, cursors.
function marks() {
  const { selection, tool } = desk;
  return [
    ...others().flatMap(({ color, selectedShapeIds }) => around(selectedShapeIds, 'other', color)),
    ...around(selection, 'selected'),
    ...(tool === 'select' && selection.size === 1 ? spotsOf(selection).flatMap(handlesOf) : []),
    ...others().filter(({ cursor }) => cursor !== null).map(cursorOf),
  ];
}

const spotsOf = (ids) => [...ids].map((id) => desk.spots.get(id)).filter(Boolean);
const between = (start, end, x = 0, y = 0) =>
  ({ x1: start.x - x, y1: start.y - y, x2: end.x - x, y2: end.y - y });

// Marks around the shapes of some ids, and along arrows.
const around = (ids, name, who = '') => spotsOf(ids).map(({ x, y, w, h, start, end }) => {
  const place = start ? between(start, end) : { x, y, width: w, height: h };
  return element(start ? 'line' : 'rect', { class: `mark ${name}`, '--who': who, ...place });
});

// An arrow has handles at its ends, a shape with an extent at its lower right corner.
function handlesOf({ record, x, y, w, h, start, end }) {
  const handle = (name, cx, cy) => element('circle', { class: 'handle', 'data-handle': name, cx, cy, r: 6 });
  const corner = 'w' in record.props ? [handle('corner', x + w, y + h)] : [];
  return start ? [handle('start', start.x, start.y), handle('end', end.x, end.y)] : corner;
}

function cursorOf({ cursor: { x, y }, color, userName }) {
  const parts = [element('use', { href: '#pointer' }), element('text', { x: 16, y: 26 }, userName)];
  return element('g', { class: 'cursor', '--who': color, '--x': `${x}px`, '--y': `${y}px` }, ...parts);
}
