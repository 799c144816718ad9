// Typing into a shape: what is typed at the end of its text is appended, so that two people may type at once.
// An append says at which byte it goes. Where somebody else's text came there first, the room passes it over;
// it is then appended again behind what is there.

import { begin, board, desk, use } from './board-desk.js';
import { byId, dress, set, wordsClass } from './board-draw.js';
import { bytesOf } from './values.js';

// What was appended and may be passed over: of each piece the shape, the place, and whether it was sent.
let pieces = [];
// The field over the shape `typed`, and what it held last. While a letter is put together it holds more.
const area = byId('text');
let taken = '';

area.addEventListener('input', ({ isComposing }) => isComposing || take());
area.addEventListener('compositionend', take);
area.addEventListener('blur', () => type(null));
board.on('change', (ids) => queueMicrotask(() => ids.forEach(appendAgain)));
board.on('change', showField);
board.on('state', () => queueMicrotask(() => pieces.forEach((piece) => (piece.isSent ||= board.isOpen))));

/** What was typed stays as it is shown: it is answered, or is taken back. */
export function settle() { pieces = []; }

const keyOf = (id) => (board.document.get(id)?.type === 'frame' ? 'name' : 'text');
const textOf = (id) => board.document.get(id)?.props?.[keyOf(id)];

/** Opens the field over a shape that has a text or a name; else closes it. */
export function type(id) {
  desk.typed = textOf(id) === undefined || board.document.get(id).type === 'arrow' ? null : id;
  if (desk.typed !== null) {
    begin('typing');
    use('select', [id]);
  }
  showField();
  area.focus();
}

// Takes what was typed. An undo takes back a word. What is refused is shown no more.
function take() {
  const [id, before, text] = [desk.typed, taken, area.value];
  taken = text;
  queueMicrotask(showField);
  if (/\s$/.test(text)) {
    begin('typing');
  }
  if (id !== null && text !== before) {
    put(id, before, text);
  }
}

// Makes a text another one: appends what it has behind the one before, else puts the whole.
function put(id, before, text) {
  const [shown, more] = [textOf(id), text.slice(before.length)];
  const isAppend = text.startsWith(before);
  const operation = isAppend ? ['append', more, bytesOf(shown)] : ['put', text];
  board.edit({ [id]: ['patch', { props: ['patch', { [keyOf(id)]: operation }] }] });
  const piece = { id, text: more, at: shown.length, isSent: board.isOpen };
  pieces = isAppend ? [...pieces, piece] : pieces.filter((other) => other.id !== id);
}

// Appends again what was passed over of a shape's text, each piece by itself: behind a longer one that is
// passed over, the room might have the next one after all. What wasn't sent comes last in the text that is
// shown; what was sent may be further up, as the room may have answered.
function appendAgain(id) {
  const shown = textOf(id) ?? '';
  const own = pieces.filter((piece) => piece.id === id && board.document.has(id));
  const from = (place) => own.slice(place).map(({ text }) => text).join('');
  const passed = own.filter(({ text, at, isSent }, place) =>
    (isSent ? !shown.startsWith(text, at) : shown.slice(at) !== from(place)));
  if (passed.length > 0) {
    pieces = pieces.filter((piece) => !passed.includes(piece));
    board.mark('typing');
    passed.forEach(({ text }) => put(id, '', text));
  }
}

// Shows the field where its shape is, with the text as it is in the document.
function showField() {
  const [field, spot] = [area.closest('.field'), desk.spots.get(desk.typed)];
  field.toggleAttribute('hidden', !spot);
  set({ typed: spot ? desk.typed : null });
  if (spot) {
    const { record: { type: kind, props }, x, y, w, h } = spot;
    const name = { y: y - 30, width: Math.max(w, 200), height: 26 };
    const place = kind === 'frame' ? name : { y, width: w, height: h };
    dress(field, { class: `field ${kind} size-${props.size}`, x, ...place });
    write(textOf(desk.typed));
  }
}

// Writes a text into the field, where all in it is taken. The cursor stays where it is, or at the end.
function write(text) {
  const { selectionStart, selectionEnd, value } = area;
  dress(area.parentElement, { class: wordsClass(text) });
  if (value === taken && value !== text) {
    area.value = text;
    taken = area.value;
    if (selectionEnd < value.length) {
      area.setSelectionRange(selectionStart, selectionEnd);
    }
  }
}
