// The page of a board: has keys, buttons and the connection work at the desk, and shows who is here.

import * as desks from './board-desk.js';
import { byId, element, others, set, tell } from './board-draw.js';
import { settle } from './board-text.js';
import { cancel, enter } from './board-tools.js';

const { asked, board, desk, fit, pageId, server } = desks;
// What the buttons name.
const deeds = { ...desks, cancel, enter, settle };

const STEPS = { ArrowDown: [0, 1], ArrowLeft: [-1, 0], ArrowRight: [1, 0], ArrowUp: [0, -1] };
const PEOPLE = ['#d6457f', '#b3561d', '#7a55d9', '#13808f', '#3d7a1f', '#2f66d0', '#a33ec2', '#b8323f'];
const STATES = { connecting: 'Connecting', open: 'Open', lost: 'Trying again' };
// How many selected shapes others see; milliseconds after which the page looks what is to be shown and told.
const [MOST_SEEN, PACE] = [100, 100];

// Does what the button does that has the key, where what has the focus doesn't take the key.
function press(event) {
  const { key, shiftKey, target } = event;
  const control = event.ctrlKey || event.metaKey ? `control+${shiftKey ? 'shift+' : ''}` : '';
  const button = document.querySelector(`[data-keys~="${CSS.escape(control + key.toLowerCase())}"]`);
  const isTaken = target.matches('#name') || (target.matches('button') && key === 'Enter')
    || (target.matches('textarea') && !button?.matches('[data-typing]'));
  if (key === 'Escape' && target.matches('#name, textarea')) {
    target.blur();
  } else if (button && !isTaken) {
    event.preventDefault();
    button.click();
  } else if (STEPS[key] && !isTaken) {
    deeds.nudge(...STEPS[key].map((part) => part * (shiftKey ? 10 : 1)));
  }
}

// Sets what others see of the user, where it changed.
let appeared = '';
function appear() {
  const userName = byId('name').value.trim().slice(0, 40) || 'Somebody';
  const color = PEOPLE[[...userName].reduce((sum, letter) => sum + letter.codePointAt(0), 0) % PEOPLE.length];
  const record = {
    color, currentPageId: pageId, cursor: desk.pointer, id: 'instance_presence:own', meta: {},
    selectedShapeIds: [...desk.selection].slice(0, MOST_SEEN), typeName: 'instance_presence', userName,
  };
  if (JSON.stringify(record) !== appeared) {
    appeared = JSON.stringify(record);
    board.presence(record);
    byId('own').replaceChildren(faceOf(record));
  }
}

const faceOf = ({ color, userName }) =>
  element('span', { class: 'face', title: userName, '--who': color }, [...userName][0].toUpperCase());

function meet() {
  const named = (other) => [faceOf(other), element('span', { class: 'wide' }, other.userName)];
  byId('others').replaceChildren(...others().map((other) => element('li', {}, ...named(other))));
  set();
}

// Shows the status. The clock may change where nothing else does, so it is looked at again and again.
function look() {
  const isCut = !byId('connected').checked;
  byId('status').dataset.state = board.state;
  byId('state').textContent = isCut ? 'Cut' : STATES[board.state] ?? board.state;
  byId('clock').textContent = board.clock < 0 ? '–' : board.clock;
  byId('pending').textContent = board.pending;
  byId('absent').hidden = isCut || board.state !== 'lost' || board.clock >= 0;
  if (board.pending === 0 && board.isOpen) {
    settle();
  }
}

const connect = () => board.reconnect().catch((fault) => tell(fault.message));

byId('server').textContent = server;
byId('name').value = asked.get('name') ?? sessionStorage.name ?? `Guest ${Date.now() % 100}`;
byId('name').addEventListener('input', () => (sessionStorage.name = byId('name').value));
byId('connected').addEventListener('change', ({ target }) => (target.checked ? connect() : board.cut()));
addEventListener('click', ({ target }) => {
  const button = target.closest('button');
  button?.dataset.do.split(' ').forEach((deed) => deeds[deed](button.value));
});
addEventListener('keydown', press);
addEventListener('error', ({ error }) => tell(`Not done: ${error.message}`));
board.on('others', meet);
setInterval(look, PACE);
setInterval(appear, PACE);
fit();
connect().then(() => requestAnimationFrame(fit));
