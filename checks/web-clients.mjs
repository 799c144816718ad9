// Eight clients of a room, in one node: each edits, loses its connection and comes back. `checks/web` starts this with the
// folder of the package `ws`, the server's port, the number of clients, of edits of each and of losses of each.
//
// Once all is answered and no client lacks anything, each prints `{"clock":..,"doc":..,"others":N}`, and leaves.

import { createRequire } from 'node:module';
import { EditFault, openBoard } from '../web/socket.js';
import { print } from '../web/values.js';

const [packages, port, clients, edits, losses] = process.argv.slice(2).map((word) => (/^\d+$/.test(word) ? Number(word) : word));
const { WebSocket } = createRequire(import.meta.url)(`${packages}/ws`);
const PAGE = { id: 'page:p', index: 'a1', meta: {}, name: '', typeName: 'page' };
const PROPS = { autoSize: false, color: 'black', h: 10, size: 'm', text: '', w: 10 };

const pause = (milliseconds) => new Promise((resolve) => setTimeout(resolve, milliseconds));

async function until(holds) {
  while (!holds()) {
    await pause(20);
  }
}

// Numbers that look drawn, the same in each run.
function drawing(seed) {
  let state = seed + 1;
  return (below) => {
    state = (Math.imul(state, 1_103_515_245) + 12_345) >>> 0;
    return (state >>> 8) % below;
  };
}

// A client, and the socket that it has now.
async function join(number) {
  let socket;
  class Kept extends WebSocket {
    constructor(url) {
      super(url);
      socket = this;
    }
  }
  const board = await openBoard(`ws://127.0.0.1:${port}/`, 0, { WebSocket: Kept, firstWait: 20 });
  board.presence({
    id: 'instance_presence:me', color: 'red', currentPageId: 'page:p', cursor: null, meta: {}, selectedShapeIds: [],
    typeName: 'instance_presence', userName: `c${number}`,
  });
  return { board, draw: drawing(number), number, drop: () => socket.terminate() };
}

function shape(id, x) {
  return {
    id, isLocked: false, meta: {}, opacity: 100, parentId: 'page:p', props: PROPS, rotation: 0, type: 'text', typeName: 'shape', x, y: 0,
  };
}

function edit({ board, draw, number }, place) {
  const id = `shape:${draw(clients)}-${draw(20)}`;
  const text = board.document.get(id)?.props.text ?? '';
  switch (draw(10)) {
    case 0:
      return board.edit({ [id]: ['remove'] });
    case 1:
      return board.undo();
    case 2:
      return board.redo();
    case 3:
      board.copy([id]);
      return board.paste({ dx: 1, dy: 1, parent: 'page:p', prefix: `${number}-${place}-` });
    case 4:
    case 5:
      return board.edit({ [id]: ['patch', { props: ['patch', { text: ['append', 'é', Buffer.byteLength(text)] }] }] });
    case 6:
      return board.edit({ [id]: ['patch', { x: ['put', draw(1000)] }] });
    default:
      board.mark('put');
      return board.edit({ [id]: ['put', shape(id, draw(1000))] });
  }
}

// A loss that the client learns of by itself, or one that it is told.
async function lose({ board, draw, drop }) {
  if (draw(2) === 0) {
    const learns = new Promise((resolve) => {
      board.on('state', resolve);
    });
    drop();
    await learns;
  } else {
    board.cut();
    await pause(draw(50));
    board.reconnect();
  }
}

async function play(client) {
  const { board } = client;
  for (let place = 0; place < edits; place += 1) {
    try {
      edit(client, place);
    } catch (fault) {
      if (!(fault instanceof EditFault) || !['NoRecord', 'NoShape', 'Taken', 'Invalid'].includes(fault.name)) {
        throw fault;
      }
    }
    if ((place + 1) % Math.ceil(edits / (losses + 1)) === 0 && place + 1 < edits) {
      await lose(client);
    }
    // An edit while the client is lost stays pending.
    await until(() => board.pending < 5 || board.state !== 'open');
  }
}

const all = await Promise.all([...Array(clients).keys()].map(join));
all[0].board.edit({ 'page:p': ['put', PAGE] });
await until(() => all.every(({ board }) => board.document.has('page:p')));
await Promise.all(all.map(play));
const isQuiet = () => all.every(({ board }) => board.state === 'open' && board.pending === 0 && board.clock === all[0].board.clock);
await until(isQuiet);
await pause(500);
await until(isQuiet);
for (const { board } of all) {
  console.log(print({ clock: board.clock, doc: Object.fromEntries(board.document), others: board.others.size }));
  board.cut();
}
