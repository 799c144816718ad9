// A client of a room, by messages alone: it edits a document by itself, and keeps in step with the room where
// it is connected to one. `socket.js` puts it on a socket.
//
// Its base is the room's document at the clock that it has reached, its works are the diffs that it did and
// that aren't answered. What it shows is the base with these done to it, one after the other. To take what
// the room says, the works are taken back, the base is changed, and what is still pending is done again.

import { Clip } from './clips.js';
import { completed } from './completion.js';
import { check, EditFault, TakeFault } from './fault.js';
import { Marks } from './marks.js';
import { afterOperation, isDiff, step } from './operations.js';
import { admissionFault, SCHEMA, scopeOf, typeOf } from './records.js';
import { at, byBytes, isSame, setIn } from './values.js';
import { queried, told } from './views.js';

export { EditFault, TakeFault };

const PROTOCOL = 2;

// Records by id, and what stood under those that were written since `changes` was called last.
class Shown extends Map {
  #before = new Map();

  set(id, record) {
    this.#touch(id);
    return super.set(id, record);
  }

  delete(id) {
    this.#touch(id);
    return super.delete(id);
  }

  // The ids under which something else stands than at the last call, rising by bytes.
  changes() {
    const changed = [...this.#before].filter(([id, record]) => !isSame(record, this.get(id)));
    this.#before = new Map();
    return changed.map(([id]) => id).sort(byBytes);
  }

  #touch(id) {
    if (!this.#before.has(id)) {
      this.#before.set(id, this.get(id));
    }
  }
}

/**
 * A client of a room, whose schema is that of version 3. Records, diffs, views, queries and messages have the
 * forms of `docs/FORMATS.md`. What a client is given and what it shows is its own from then on: nobody
 * changes it. A call that throws has done nothing.
 */
export class Client {
  /** The records that are shown, a `Map` by id: what the room accepted, and over it what is pending. */
  document = new Shown();
  /** The presence of others, a `Map` by id; empty where the client isn't connected. */
  others = new Shown();
  /** The room's clock that was reached, -1 where the room never answered. */
  clock = -1;
  /** The reason for which the room won't have the client, or `null`. */
  refused = null;
  // The room's document at the clock.
  #base = new Map();
  // `{diff}` of an edit, `{presence}` of a record by which others see the client.
  #works = [];
  // How many pushes were ever made, and how many pending works the last of them sent on this connection.
  #pushes = 0;
  #sent = 0;
  // `off`, `asking` or `open`; the request that was made last; the own presence.
  #connection = 'off';
  #request = '';
  #own = null;
  // A diff that names no id takes nothing back, and isn't pending.
  #marks = new Marks((diff) => (Object.keys(diff).length === 0 ? {} : this.#do(diff)));
  #clip = null;

  /** How many edits and presences the room hasn't answered yet. */
  get pending() { return this.#works.length; }

  /** Whether the room has answered the last `connect`, and the connection stands. */
  get isOpen() { return this.#connection === 'open'; }

  /**
   * Does an edit, completed: new shapes get their index, and what hangs on a removed record goes with it. It
   * is pending, and can be taken back by `undo`.
   * @param {object} diff operations by id: `['put', record]`, `['patch', patch]` or `['remove']`
   * @throws {EditFault} where it can't be done, with the name, id and cause of `docs/FORMATS.md`
   */
  edit(diff) {
    check(isDiff(diff), 'Field');
    this.#marks.edit(this.#do(completed(this.document, diff)));
  }

  /**
   * Sets the record by which others see this client, a whole `instance_presence`, to which the room gives the
   * session's id.
   * @throws {EditFault} `WrongScope`, or `Invalid` with the cause
   */
  presence(record) {
    const id = typeof at(record, 'id') === 'string' ? record.id : '-';
    check(scopeOf(id) === 'presence', 'WrongScope', id);
    const why = admissionFault(id, record);
    check(why === null, 'Invalid', id, why);
    this.#own = record;
    this.#showOwn();
  }

  /** Makes a mark of a name, any text: `undo` goes back to it, and `bail` by its name. */
  mark(name) { this.#marks.mark(name); }

  /** Takes the own edits back to the last mark, or to the first of them; answers whether there was one. */
  undo() { return this.#marks.undo(); }

  /** Does again what `undo` took back last; answers whether there was something. */
  redo() { return this.#marks.redo(); }

  /** Takes the own edits back to the last mark of a name, and forgets both. @throws {EditFault} `NoMark` */
  bail(name) { this.#marks.bail(name); }

  /**
   * Copies shapes with what hangs under them and the bindings between, in place of what was copied before.
   * @throws {EditFault} `NoShape`, `Doubled`, `TooMany`
   */
  copy(ids) { this.#clip = new Clip(this.document, ids); }

  /**
   * Pastes what was copied last under a page or shape, moved by `dx` and `dy`, as an edit; answers the new
   * ids. Their prefix, 1 to 60 characters of `A-Z a-z 0-9 _ -`, must be another at each paste.
   * @throws {EditFault} `Field`, `NoClip`, `Taken`, `NoKey`, or as `edit`
   */
  paste({ dx, dy, parent, prefix }) {
    check([dx, dy].every(Number.isSafeInteger) && ['page', 'shape'].includes(typeOf(parent)), 'Field');
    check(typeof prefix === 'string' && /^[A-Za-z0-9_-]{1,60}$/.test(prefix), 'Field');
    check(this.#clip !== null, 'NoClip');
    const diff = this.#clip.pasted(this.document, { dx, dy, parent, prefix });
    this.edit(diff);
    return Object.keys(diff);
  }

  /** What a view tells: `{box: id}` (past 2^53 as `BigInt`), `{tree: id}`, `{bound: id}`, `{count: id}`. */
  view(view) { return told(this.document, view); }

  /** The ids of the records of a type that meet a query, as `['eq', 'type', 'geo']`, rising by bytes. */
  query(type, query) { return queried(this.document, type, query); }

  /**
   * The message that asks the room for a session, by a request whose number the answer will name.
   * @throws {EditFault} `AlreadyOpen`; `Refused` where the room won't have the client
   */
  connect(request) {
    check(this.#connection === 'off', 'AlreadyOpen');
    check(this.refused === null, 'Refused', null, this.refused);
    this.#connection = 'asking';
    this.#request = String(request);
    const [connectRequestId, lastServerClock] = [this.#request, this.clock];
    return { connectRequestId, lastServerClock, protocolVersion: PROTOCOL, schema: SCHEMA, type: 'connect' };
  }

  /** The pushes of what is pending and wasn't sent on this connection, in order. They are to be sent. */
  pushes() {
    const messages = [];
    while (this.isOpen && this.#sent < this.#works.length) {
      const { diff, presence } = this.#works[this.#sent];
      this.#pushes += 1;
      this.#sent += 1;
      const what = diff === undefined ? { presence: ['put', presence] } : { diff };
      messages.push({ clientClock: this.#pushes, ...what, type: 'push' });
    }
    return messages;
  }

  /** Takes a message of the room. @throws {TakeFault} where it isn't one that can come now */
  take(message) {
    const { type, data } = message;
    if (type === 'connect') {
      this.#takeAnswer(message);
      return;
    }
    checkTaken(this.isOpen, 'a message came before the answer');
    checkTaken(type === 'data' || type === 'pong', `there is no message ${type}`);
    if (type === 'data') {
      this.#checkEvents(data);
      this.#underPending(() => data.forEach((event) => this.#takeEvent(event)));
    }
  }

  /**
   * The connection is lost, or the room ended the session for a reason. Edits stay pending, to be pushed
   * again; presences don't. After any reason but `SLOW` the room won't have the client again.
   */
  cut(reason = null) {
    this.#works = this.#works.filter(({ diff }) => diff !== undefined);
    this.#sent = 0;
    this.#connection = 'off';
    this.#forgetOthers();
    this.refused = [null, 'SLOW'].includes(reason) ? this.refused : reason;
  }

  /** What is shown otherwise than at the last call: `{ids, others}`, the ids of records and of presences. */
  changes() { return { ids: this.document.changes(), others: this.others.changes() }; }

  // Does a diff, which is pending then; answers the diff that undoes what acted.
  #do(diff) {
    this.#works.push({ diff });
    return step(this.document, diff);
  }

  #showOwn() {
    if (this.isOpen && this.#own !== null) {
      this.#works.push({ presence: this.#own });
    }
  }

  // Each result must be that of the first push that is due, and no clock may lie below the one before.
  #checkEvents(events) {
    let [due, clock] = [this.#pushes - this.#sent + 1, this.clock];
    for (const { type, clientClock, serverClock } of events) {
      if (type === 'push_result') {
        const isDue = due <= this.#pushes && clientClock === due;
        checkTaken(isDue, `a result of push ${clientClock} came, and ${due} is due`);
        due += 1;
      }
      checkTaken(serverClock >= clock, `the clock goes back from ${clock} to ${serverClock}`);
      clock = serverClock;
    }
  }

  #takeAnswer({ connectRequestId, diff, hydrationType, serverClock }) {
    checkTaken(this.#connection === 'asking', 'an answer came, and the client does not ask');
    checkTaken(connectRequestId === this.#request, 'the answer is to another request');
    this.#forgetOthers();
    this.#underPending(() => {
      if (hydrationType === 'wipe_all') {
        this.#write(Object.fromEntries([...this.#base.keys()].map((id) => [id, ['remove']])));
      }
      this.#write(diff);
    });
    this.clock = serverClock;
    this.#connection = 'open';
    this.#showOwn();
  }

  #takeEvent({ type, diff, action, serverClock }) {
    this.clock = serverClock;
    if (type === 'patch') {
      this.#write(diff);
      return;
    }
    const pushed = this.#works.shift();
    this.#sent -= 1;
    const accepted = { commit: pushed.diff, discard: {} };
    this.#write((typeof action === 'string' ? accepted[action] : action.rebaseWithDiff) ?? {});
  }

  // Changes the base while what is pending is taken back, and does again what is pending then.
  #underPending(change) {
    this.#works.forEach(({ diff = {} }) => Object.keys(diff).forEach((id) => this.#showBase(id)));
    change();
    this.#works.forEach(({ diff = {} }) => step(this.document, diff));
  }

  // Does a diff of the room's to the base, and to the presence of others.
  #write(diff) {
    for (const [id, operation] of Object.entries(diff)) {
      const records = scopeOf(id) === 'presence' ? this.others : this.#base;
      setIn(records, id, afterOperation(records.get(id), operation));
      this.#showBase(id);
    }
  }

  #showBase(id) { setIn(this.document, id, this.#base.get(id)); }

  #forgetOthers() { [...this.others.keys()].forEach((id) => this.others.delete(id)); }
}

function checkTaken(holds, what) {
  if (!holds) {
    throw new TakeFault(what);
  }
}
