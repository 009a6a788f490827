'use strict';
// The part below each lane: the messages on their way to the server, its buttons, and its knowledge.

// At first, an inbox shows only this many of its messages, the newest ones.
const SHOWN = 5;
// At first, the list of replies shows only this many of them, the newest ones.
const REPLIES = 30;
// `whole` contains the lists that are shown in full, and `again` the servers whose heard messages are shown. `ask` is
// the server with an open form for a command, or null.
const dock = { whole: new Set(), again: new Set(), ask: null };

// A button that shows the hidden part of a list.
const wholeButton = (list, text, label) => el('button', { 'data-do': `whole ${list}`, 'aria-label': label }, text);

const ownerOf = (instance, servers) => `owner${instance % servers}`;
const written = value => value ?? '–';

// The box next to the servers: the result of the last event, some counts, and the replies.
function summary(now) {
  const { cursor, schedule, trace } = now, event = trace.events.at(-1);
  const said = cursor === 0 ? 'nothing has happened yet' : `after event ${cursor - 1}`;
  const box = el('div', { class: 'summary' }, el('h2', {}, said));
  if (event?.refusal) {
    box.append(el('p', { class: 'bad' }, `refused: ${event.refusal}, because ${REFUSALS[event.refusal]}`));
  }
  const counts = [count(trace.accepted, 'event'), count(trace.messages.length, 'message')];
  const common = saidOf(schedule).filter(([name]) => COMMON.includes(name)).map(([name, value]) => `${name} ${value}`);
  box.append(el('p', {}, [...counts, ...common].join(', ')));
  if (trace.commands.size > 0) {
    box.append(el('h3', {}, 'replies'), replies(trace));
  }
  if (cursor > 0) {
    box.append(el('button', { 'data-do': 'out', title: 'Delete' }, `take out event ${cursor - 1}`));
  }
  const later = schedule.events.length - cursor;
  if (later > 0) {
    const title = 'take out all events after the cursor';
    box.append(el('button', { 'data-do': 'cut', title }, `take out ${count(later, 'later event')}`));
  }
  return box;
}

function replies(trace) {
  const hidden = dock.whole.has('replies') ? 0 : Math.max(0, trace.commands.size - REPLIES);
  const button = hidden > 0 ? el('li', {}, wholeButton('replies', `show ${hidden} older ..`)) : null;
  const isNew = id => trace.events.at(-1).lines.some(line => line.startsWith(`reply ${id} `));
  const classOf = (id, reply) => (reply === 'pending' ? 'soft' : isNew(id) ? 'changed' : null);
  return el('ul', { class: 'replies' }, button, ...trace.repliesFrom(hidden).map(([id, reply]) =>
    el('li', { class: classOf(id, reply) }, el('b', {}, id), ` ${trace.commands.get(id)} `, el('i', {}, `→ ${reply}`))));
}

const count = (number, what) => `${number} ${what}${number === 1 ? '' : 's'}`;

function card(now, server) {
  const { front, executed, waiting } = now.trace.closing[server];
  const marked = executedNow(now.trace, server) === null ? null : 'changed';
  const facts = [`next own i${front} · `, el('span', { class: marked }, `executed ${executed}`)];
  if (waiting.length) facts.push(` · waiting ${waiting.join(' ')}`);
  return el('section', { class: `server owner${server}`, 'data-server': server, 'aria-label': `server ${server}` },
    inbox(now, server), actions(now, server),
    el('p', { class: 'facts' }, ...facts),
    table(now, server), historyOf(now, server), mapOf(now, server));
}

// ---- messages on their way

function inbox(now, server) {
  const { trace } = now, due = trace.due[server];
  const hidden = dock.whole.has(`inbox${server}`) ? 0 : Math.max(0, due.length - SHOWN);
  const list = el('ul', { class: 'inbox', 'aria-label': `messages on their way to server ${server}` });
  if (due.length === 0) list.append(el('li', { class: 'soft' }, 'no message on its way'));
  if (hidden > 0) list.append(el('li', {}, wholeButton(`inbox${server}`, `show ${hidden} older ..`)));
  list.append(...due.slice(hidden).map(number => messageRow(now, trace.messages[number], server)));
  if (dock.again.has(server)) {
    list.append(...[...trace.heardBy(server)].slice(-SHOWN).map(message => messageRow(now, message, server, true)));
  }
  return list;
}

function messageRow(now, { number, kind, from, instance, label, value }, server, isAgain = false) {
  const command = now.trace.commands.get(value);
  const content = command ? `${label} (${command})` : label;
  const said = `message ${number}, ${kind} ${content}, from server ${from} to server ${server}`;
  const deliver = `deliver ${isAgain ? 'again ' : ''}${said}`;
  return el('li', { class: `${ownerOf(instance, now.schedule.servers)}${isAgain ? ' again' : ''}`, 'data-m': number },
    el('button', { class: 'message', 'data-do': `deliver ${number} ${server}`, title: deliver, 'aria-label': deliver },
      el('b', {}, `${number} ${kind}`), ` ${label} `, el('i', {}, isAgain ? 'again' : `←${from}`),
      command ? el('small', {}, command) : null),
    isAgain ? null : loseButton(`lose ${number} ${server}`, `lose ${said}`));
}

function loseButton(event, said) {
  return el('button', { class: 'lose', 'data-do': event, title: said, 'aria-label': said }, '×');
}

// ---- buttons for other events; a button is grey if the proved code refuses its event

function actions({ schedule, trace }, server) {
  const others = Array.from({ length: schedule.servers }, (_, other) => other).filter(other => other !== server);
  const button = (event, text, label) =>
    el('button', { 'data-do': event, 'data-asked': event, 'aria-label': label }, text);
  const again = trace.hasHeard(server) ? againButton(server) : null;
  return el('div', { class: 'acts' },
    dock.ask === server ? askForm(schedule, server) : askButton(server),
    button(`execute ${server}`, 'execute'), button(`retry ${server}`, 'retry'), again,
    others.length === 0 ? null : el('span', { class: 'suspects' }, 'suspect',
      ...others.map(other => button(`suspect ${server} ${other}`, String(other), `suspect ${other}`))));
}

function askForm(schedule, server) {
  const { command } = DATA.operations;
  const said = `command for server ${server}: ${command}`;
  return el('form', { class: 'ask', 'data-server': server },
    el('input', { value: commandFor(identitiesIn(schedule), server), 'aria-label': said, spellcheck: 'false' }),
    el('button', {}, 'submit'),
    el('button', { type: 'button', 'data-do': 'ask -1', 'aria-label': 'cancel' }, '×'),
    el('small', {}, command));
}

function askButton(server) {
  return el('button', { 'data-do': `ask ${server}`, title: `submit a command to server ${server}` }, 'submit ..');
}

function againButton(server) {
  const title = 'show messages that this server has heard, to deliver them again';
  const isPressed = String(dock.again.has(server));
  return el('button', { 'data-do': `again ${server}`, 'aria-pressed': isPressed, title }, 'again');
}

// The identities of the commands that a schedule submits.
function identitiesIn({ events }) {
  return new Set(events.filter(event => event.startsWith('submit')).map(event => event.split(' ')[2]));
}

// The next command of the client of this server. Its number is the first one that the client has not used.
function commandFor(used, server) {
  const client = server + 1;
  let number = 0;
  while (used.has(`${client}.${number}`)) number += 1;
  return `${client}.${number} set a ${['x', 'y', 'z'][used.size] ?? `v${used.size}`}`;
}

// ---- the whole dock

function fillDock(now) {
  const kept = focusedPlace();
  const cards = Array.from({ length: now.schedule.servers }, (_, server) => card(now, server));
  becomeLike($('dock'), el('div', {}, summary(now), ...cards));
  if (kept) focusAgain(kept);
  if (dock.ask !== null) $('dock').querySelector('.ask input')?.select();
}

// ---- the focus is restored, because a new dock would lose it

function focusedPlace() {
  const focused = document.activeElement?.closest?.('#dock [data-do]');
  if (!focused) return null;
  const server = focused.closest('[data-server]')?.dataset.server;
  const buttons = [...$('dock').querySelectorAll(`[data-server="${server}"] [data-do]`)];
  return { event: focused.dataset.do, server, index: buttons.indexOf(focused) };
}

function focusAgain({ event, server, index }) {
  const same = $('dock').querySelector(`[data-do="${CSS.escape(event)}"]`);
  const buttons = [...$('dock').querySelectorAll(`[data-server="${server}"] [data-do]`)];
  (same ?? buttons[Math.min(index, buttons.length - 1)])?.focus({ preventScroll: true });
}
