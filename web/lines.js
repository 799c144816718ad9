// The clients of `rooms-client.js`, asked by lines: what `checks/web` plays recordings with. `README.md` has
// the lines.

import { Client, EditFault } from './rooms-client.js';
import { print } from './values.js';

// Clients by number: the client, the session that it asked for last, and its watches with what each told
// last.
const clients = new Map();

// What is done at a line; answers what is printed, but for messages and views.
const events = {
  begin: () => clients.clear(),
  client: (line) => clients.set(line.client, { client: new Client(), session: null, watches: [] }),
  connect: (line, asked) => {
    asked.session = line.request;
    return [sent(asked, asked.client.connect(line.request))];
  },
  take: (line, { client }) => client.take(line.message),
  ended: (line, { client }) => client.cut(line.reason),
  cut: (_, { client }) => client.cut(),
  edit: (line, { client }) => client.edit(line.diff),
  presence: (line, { client }) => client.presence(line.record),
  mark: (line, { client }) => client.mark(line.name),
  undo: (line, { client }) => [{ client: line.client, undo: client.undo() }],
  redo: (line, { client }) => [{ client: line.client, redo: client.redo() }],
  bail: (line, { client }) => client.bail(line.name),
  copy: (line, { client }) => client.copy(line.ids),
  paste: (line, { client }) => void client.paste(line),
  watch: (line, { watches }) => void watches.push({ view: line.view, last: null }),
  query: ({ client: number, type, where }, { client }) =>
    [{ client: number, ids: client.query(type, where), query: true }],
  show: (line, { client }) => [
    {
      clock: client.clock,
      doc: Object.fromEntries(client.document),
      others: Object.fromEntries(client.others),
      owed: client.pending,
      show: line.client,
    },
  ],
};

const sent = ({ session }, message) => ({ from: session, message });

// The lines that answer a line.
function answered(line) {
  const asked = clients.get(line.client);
  try {
    const said = events[line.do](line, asked);
    const lines = Array.isArray(said) ? said.map(print) : [];
    return asked === undefined ? lines : [...lines, ...newlyTold(line.client, asked), ...pushed(asked)];
  } catch (fault) {
    if (fault instanceof EditFault) {
      return [print({ fault: fault.message })];
    }
    throw fault;
  }
}

function newlyTold(number, { client, watches }) {
  const lines = [];
  watches.forEach((watch, place) => {
    const told = print(client.view(watch.view));
    if (told !== watch.last) {
      watch.last = told;
      lines.push(`{"client":${number},"told":${told},"watch":${place}}`);
    }
  });
  return lines;
}

function pushed(asked) {
  return asked.client.pushes().map((message) => print(sent(asked, message)));
}

let rest = '';
process.stdin.setEncoding('utf8');
process.stdin.on('data', (text) => {
  const lines = (rest + text).split('\n');
  rest = lines.pop();
  process.stdout.write(lines.map((line) => [...answered(JSON.parse(line)), '\n'].join('\n')).join(''));
});
