// A board over a WebSocket: a client that joins a room, stays in step with it, and comes back after a cut.
// `README.md` has an example, and `docs/FORMATS.md`, 'Sockets', what is said over the wire.

import { check } from './fault.js';
import { piecesOf, Pieces } from './pieces.js';
import { Client, EditFault } from './rooms-client.js';
import { bytesOf, messageFault, print } from './values.js';

export { EditFault };

// The most bytes of what is asked in one edit, and how deep it may nest, so that the server takes its push.
const LONGEST_EDIT = 3_000_000;
const DEEPEST = 54;

// The code by which a server closes a session that it ended for a reason.
const ENDED = 4099;

const OPTIONS = {
  readonly: false, WebSocket: globalThis.WebSocket, firstWait: 250, longestWait: 15_000, silence: 20_000,
};

/**
 * Opens a board: a client in a room of a server. The promise is that of `Board.reconnect`. A server that
 * isn't there is tried again and again.
 * @param {string} url the server's address, as `ws://127.0.0.1:9001/`
 * @param {number} room the number of the room
 * @param {object} [options] any of these:
 *     `readonly`, whether the room is to look at no edit of this client, `false` without it;
 *     `WebSocket`, the class of the socket, where the platform has none by this name;
 *     `firstWait`, the milliseconds before the first try to come back, doubled for each further one up to
 *     `longestWait`;
 *     `silence`, the milliseconds without a word after which the server is asked for one; after as many more
 *     the connection counts as lost
 */
export async function openBoard(url, room, options = {}) {
  const board = new Board(url, room, options);
  await board.reconnect();
  return board;
}

/**
 * A client that is kept in step with a room. It has the calls of `Client`, of which `connect`, `pushes`,
 * `take` and `changes` are for the board itself. Edits are done at once, also while there is no connection;
 * what isn't answered is kept, and pushed again after each return.
 *
 * A page reads what a board shows and never changes it. What a call changes is told to the listeners before
 * it returns. `edit`, `paste` and `presence` refuse what no message may have too, with `Field`, `BadJson`,
 * `NotWhole`, `OutOfRange`, `TooDeep` or `TooLong`.
 */
export class Board extends Client {
  #url;
  #room;
  #options;
  #listeners = { change: new Set(), others: new Set(), state: new Set() };
  // The socket, where there is one; an older one isn't listened to any more.
  #socket = null;
  #requests = 0;
  // The state that was told last.
  #toldState = 'lost';
  // The next wait, and the clocks of a return and of a silent server.
  #wait;
  #returning = null;
  #silent = null;

  /** A board that isn't connected yet: `openBoard` makes one, and connects it by `reconnect`. */
  constructor(url, room, options = {}) {
    super();
    this.#url = url;
    this.#room = room;
    this.#options = { ...OPTIONS, ...options };
    this.#wait = this.#options.firstWait;
  }

  /** `connecting`, `open`, `lost`, or `refused REASON` where the room won't have the client again. */
  get state() {
    if (this.refused !== null) {
      return `refused ${this.refused}`;
    }
    const joining = this.#socket === null ? 'lost' : 'connecting';
    return this.isOpen ? 'open' : joining;
  }

  /**
   * Calls a function at each happening of a name: `change` with the ids of the records that are shown
   * otherwise than before, `others` with the ids of the presences that are, `state` with the new state.
   * Answers a function that ends it.
   */
  on(name, listener) {
    this.#listeners[name].add(listener);
    return () => this.#listeners[name].delete(listener);
  }

  // What a client does, and then what is pushed and told of it.
  edit(diff) { this.#tell(super.edit(sendable(diff))); }
  presence(record) { this.#tell(super.presence(sendable(record))); }
  undo() { return this.#tell(super.undo()); }
  redo() { return this.#tell(super.redo()); }
  bail(name) { this.#tell(super.bail(name)); }

  /** Drops the connection, and stays without one until `reconnect`. A page that is left needs no call. */
  cut() {
    this.#leave();
    this.#tell();
  }

  /**
   * Connects now, also where the next try would come later. The promise is kept once the room has answered,
   * at once where it has, and broken with an `EditFault` `Refused` where the room won't have the client.
   */
  async reconnect() {
    if (this.#socket === null && this.refused === null) {
      this.#join();
    }
    while (!this.isOpen) {
      check(this.refused === null, 'Refused', null, this.refused);
      await new Promise((resolve) => {
        const end = this.on('state', () => resolve(end()));
      });
    }
  }

  #join() {
    clearTimeout(this.#returning);
    const socket = new this.#options.WebSocket(this.#url);
    const pieces = new Pieces();
    const ifCurrent = (handle) => (event) => this.#socket === socket && handle(event);
    this.#socket = socket;
    socket.onopen = ifCurrent(() => this.#ask());
    socket.onmessage = ifCurrent(({ data }) => this.#hear(pieces, data));
    socket.onclose = ifCurrent(({ code, reason }) => this.#lose(code === ENDED ? reason : null));
    socket.onerror = () => {}; // A close follows.
    this.#tell();
  }

  #ask() {
    this.#requests += 1;
    this.#send({ readonly: this.#options.readonly, room: this.#room, type: 'join' });
    this.#send(this.connect(this.#requests));
    this.#expect();
  }

  #send(message) { piecesOf(print(message)).forEach((piece) => this.#socket.send(piece)); }

  // Takes a piece, and the message that it ends. What can't be taken is as a lost connection.
  #hear(pieces, piece) {
    this.#expect();
    try {
      const text = pieces.add(piece);
      if (text !== null) {
        this.take(JSON.parse(text));
      }
    } catch (fault) {
      console.error(`rooms: ${fault.message}`);
      this.#lose();
      return;
    }
    this.#wait = this.isOpen ? this.#options.firstWait : this.#wait;
    this.#tell();
  }

  // Waits for a word of the server, asks for one where none comes, and gives up where none comes then.
  #expect() {
    const { silence } = this.#options;
    clearTimeout(this.#silent);
    this.#silent = setTimeout(() => {
      this.#send({ type: 'ping' });
      this.#silent = setTimeout(() => this.#lose(), silence);
    }, silence);
  }

  // The connection is lost, or was ended for a reason: comes back after a wait, unless that forbids it.
  #lose(reason = null) {
    this.#leave(reason);
    if (this.refused === null) {
      // Others that lost theirs with this one come back at other times.
      this.#returning = setTimeout(() => this.#join(), this.#wait * (0.75 + Math.random() / 2));
      this.#wait = Math.min(2 * this.#wait, this.#options.longestWait);
    }
    this.#tell();
  }

  // Leaves the socket, if there is one, for a reason of the room's, if it gave one.
  #leave(reason = null) {
    clearTimeout(this.#returning);
    clearTimeout(this.#silent);
    this.#socket?.close();
    this.#socket = null;
    super.cut(reason);
  }

  // Pushes what is to be pushed, and tells what is otherwise than before; answers what it is given.
  #tell(answer) {
    this.pushes().forEach((push) => this.#send(push));
    const { ids, others } = this.changes();
    const happened = { change: ids, others, state: this.state === this.#toldState ? '' : this.state };
    this.#toldState = this.state;
    // What is empty didn't happen.
    for (const [name, what] of Object.entries(happened).filter(([, what]) => what.length > 0)) {
      [...this.#listeners[name]].forEach((listener) => listener(what));
    }
    return answer;
  }
}

// A copy of what is to be sent. @throws {EditFault} where no message may have it
function sendable(value) {
  const fault = messageFault(value, DEEPEST) ?? (bytesOf(print(value)) > LONGEST_EDIT ? 'TooLong' : null);
  check(fault === null, fault);
  return structuredClone(value);
}
