'use strict';
// Reads a trace for the tables and buttons. This file contains no rules of the protocol. Each entry of a table comes
// from a line of the trace, or is the greatest ballot of several lines. See "The trace" in docs/MODEL.md.

const NO_SLOT = { promised: 0, vote: null, tried: 0, promises: null, acceptances: null, proposal: null, learned: null,
  at: -1, fields: [] };

const UNHEARD = 'unheard ';

// The length of the lines that tell of events. The lines after them are about the state after the last event.
const lengthOfEvents = text => text.lastIndexOf('\nserver 0 front ') + 1;

// Whether a text begins with another one. For long texts, this is faster than `startsWith`.
const beginsWith = (text, start) => text.slice(0, start.length) === start;

class Trace {
  // `former` is the trace of fewer events, or undefined. If the text goes on with its lines, only new ones are read.
  constructor(text, former) {
    const start = former && beginsWith(text, former.lines) ? former.lines.length : 0;
    if (start > 0) this.copy(former);
    else this.begin();
    this.lines = text.slice(0, lengthOfEvents(text) || text.length);
    for (const line of text.slice(start).split('\n')) {
      if (line.startsWith(UNHEARD)) this.readUnheard(line); else this.read(line, line.split(' '));
    }
  }

  copy({ servers, events, accepted, messages, lost, slots, proposals, commands, histories, replies }) {
    this.begin();
    Object.assign(this, { servers, events: [...events], accepted, messages: [...messages], lost: new Set(lost) });
    Object.assign(this, { slots: slots.map(map => new Map(map)), proposals: new Map(proposals) });
    Object.assign(this, { commands: new Map(commands), histories: histories.map(ids => [...ids]) });
    this.replies = new Map(replies);
  }

  begin() {
    this.servers = 0;
    this.events = [];   // { text, firstMessage, refusal, lines }
    this.accepted = 0;  // the number of events that were not refused
    // { number, kind, from, to, instance, label, value, says }; `to` is a server, or null for all servers
    this.messages = [];
    this.closing = [];  // { front, executed, next, waiting } for each server
    this.unheard = [];  // { number, to }, in the order of the messages
    this.due = [];      // for each server, the numbers of its messages in `unheard`
    this.lost = new Set(); // texts `NUMBER SERVER`
    // For each server, a map from an instance to the server's knowledge of it. Event `at` changed `fields` last.
    this.slots = [];
    this.commands = new Map(); // from the identity of a command to its operation
    this.newest = null; // the identity that the last event added to `commands`, or null
    this.proposals = new Map();
    this.histories = []; // for each server, the identities of the commands that it executed
    this.replies = new Map(); // from the identity of a command to its reply
  }

  read(line, words) {
    const reader = READERS[words[0]];
    if (reader) reader(this, words);
    const isOfEvent = this.closing.length === 0 && words[0] !== 'event' && words[0] !== 'servers';
    if (isOfEvent) this.events.at(-1)?.lines.push(line);
  }

  // A trace of 10,000 events has thousands of these lines, `unheard NUMBER KIND to SERVER`, so they are not split.
  readUnheard(line) {
    const number = parseInt(line.slice(UNHEARD.length), 10), to = +line.slice(line.lastIndexOf(' ') + 1);
    this.unheard.push({ number, to });
    this.due[to].push(number);
  }

  // The messages that a server has heard, in the order of sending. It may hear them again.
  * heardBy(server) {
    const due = this.due[server];
    let place = 0;
    for (const message of this.messages) {
      const { number, to } = message;
      if (due[place] === number) place += 1;
      else if ((to ?? server) === server && !this.lost.has(`${number} ${server}`)) yield message;
    }
  }

  // Whether a server has heard a message.
  hasHeard(server) { return !this.heardBy(server).next().done; }

  // The replies to the submitted commands from an index on, as pairs of an identity and a text.
  repliesFrom(index) {
    return [...this.commands.keys()].slice(index).map(id => [id, this.replies.get(id) ?? 'pending']);
  }

  change(server, instance, changes) {
    const former = this.slot(server, instance), at = this.events.length - 1;
    const fields = Object.keys(changes).filter(field => changes[field] !== former[field]);
    const others = former.at === at ? former.fields : [];
    const mark = fields.length > 0 ? { at, fields: [...others, ...fields] } : {};
    this.slots[server].set(instance, { ...former, ...changes, ...mark });
  }

  slot(server, instance) {
    return this.slots[server].get(instance) || NO_SLOT;
  }
}

const READERS = {
  servers(trace, words) {
    trace.servers = +words[1];
    trace.slots = Array.from({ length: trace.servers }, () => new Map());
    trace.histories = Array.from({ length: trace.servers }, () => []);
  },
  event(trace, words) {
    const text = words.slice(2).join(' ');
    trace.events.push({ text, firstMessage: trace.messages.length, refusal: null, lines: [] });
    trace.accepted += 1;
    trace.newest = words[2] === 'submit' && !trace.commands.has(words[4]) ? words[4] : null;
    if (trace.newest) trace.commands.set(trace.newest, words.slice(5).join(' '));
    if (words[2] === 'lose') trace.lost.add(`${words[3]} ${words[4]}`);
  },
  refused(trace, words) {
    const event = trace.events.at(-1);
    event.refusal = words[1];
    trace.accepted -= 1;
    if (trace.newest) trace.commands.delete(trace.newest);
    if (words[1] !== 'LostMessage') trace.lost.delete(event.text.slice('lose '.length));
  },
  sent(trace, words) {
    const [kind, from, instance] = [words[2], +words[4], +words[8]];
    const to = words[6] === 'all' ? null : +words[6];
    const [number, label, value, says] = [+words[1], labelOf(words), valueOf(words), words.slice(2).join(' ')];
    trace.messages.push({ number, kind, from, to, instance, label, value, says });
    SENDERS[kind]?.(trace, from, instance, words);
  },
  promises(trace, words) {
    trace.change(+words[1], +words[3], { promises: `${words[7]} of ${words[9]}`, tried: +words[5] });
  },
  acceptances(trace, words) {
    trace.change(+words[1], +words[3], { acceptances: `${words[7]} of ${words[9]}`, tried: +words[5] });
  },
  learned(trace, words) {
    trace.change(+words[1], +words[3], { learned: words[5] });
  },
  executed(trace, words) {
    if (words[5] !== 'no-op') trace.histories[+words[1]].push(words[5]);
  },
  reply(trace, words) {
    trace.replies.set(words[1], words.slice(2).join(' '));
  },
  server(trace, words) {
    const [front, executed, next] = [3, 5, 7].map(place => +words[place]);
    trace.closing.push({ front, executed, next, waiting: words.slice(9).filter(word => word !== '-') });
    trace.due.push([]);
  },
};

const SENDERS = {
  Suggest(trace, from, instance, words) {
    trace.proposals.set(`${instance} 0`, words[12]);
    trace.change(from, instance, { proposal: words[12] });
  },
  Propose(trace, from, instance, words) {
    trace.proposals.set(`${instance} ${words[10]}`, words[12]);
    trace.change(from, instance, { proposal: words[12], acceptances: null });
  },
  Prepare(trace, from, instance, words) {
    trace.change(from, instance, { tried: +words[10], promises: null, acceptances: null, proposal: null });
  },
  Promise(trace, from, instance, words) {
    trace.change(from, instance, { promised: Math.max(trace.slot(from, instance).promised, +words[10]) });
  },
  Accepted(trace, from, instance, words) {
    const ballot = +words[10], { promised, vote } = trace.slot(from, instance);
    const mine = vote && vote.ballot > ballot ? vote : { ballot, value: trace.proposals.get(`${instance} ${ballot}`) };
    trace.change(from, instance, { promised: Math.max(promised, ballot), vote: mine });
  },
};

// The value in a message, or undefined.
function valueOf(words) {
  const place = words.indexOf('value');
  if (words[2] === 'Promise') return words[13];
  return place < 0 ? undefined : words[place + 1];
}

// The content of a message, without its kind, as the picture shows it.
function labelOf(words) {
  switch (words[2]) {
    case 'Skip': return `i${words[8]} until i${words[10]}`;
    case 'Learn': return `i${words[8]} = ${words[10]}`;
    case 'Promise': {
      const vote = words[12] === 'none' ? 'no vote' : `voted ${words[13]}@b${words[12]}`;
      return `i${words[8]} b${words[10]} ${vote}`;
    }
    default: return `i${words[8]} b${words[10]}` + (words[12] ? ` ${words[12]}` : '');
  }
}

// The replies in a report, from the identities of commands to texts.
function repliesIn(report) {
  const lines = report.split('\n').filter(line => line.startsWith('reply '));
  return new Map(lines.map(line => line.split(' ')).map(([, id, ...words]) => [id, words.join(' ')]));
}

// The refusal of an event in a report, or null if the event was accepted. No later event may be refused. A report
// begins with a line for each refusal, in order.
function refusalIn(report, event) {
  const end = report.startsWith('servers ') ? 0 : report.indexOf('\nservers ');
  const [, number, name] = report.slice(report.lastIndexOf('\n', end - 1) + 1, end).split(' ');
  return number === String(event) ? name : null;
}

// The reason for each refusal, in words.
const REFUSALS = {
  BadServer: 'the cluster has no such server',
  DuplicateCommand: 'a command with this identity was submitted before',
  InstancesFull: 'the server has no instance of its own left',
  NoMessage: 'no message of this number was sent',
  NotAddressed: 'the message goes to another server',
  LostMessage: 'the message was lost on its way there',
  SelfSuspect: 'no server suspects itself',
  NothingToRevoke: 'the suspicion would cover no instance of that server',
  RoundsFull: 'no round is left for another ballot',
  NothingWaiting: 'no command of the server has lost its instance and waits',
  NothingToExecute: 'the server has not learned its next instance',
  EventsFull: 'the cluster cannot accept more events',
  MessagesFull: 'the cluster cannot send more messages',
  NoMemory: 'the program ran out of memory',
};
