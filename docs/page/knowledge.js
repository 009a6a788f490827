'use strict';
// What a server knows: the table of its instances, the commands that it executed, and its map.

// At first, a table shows only this many instances, from the first one that the server has not executed. It also shows
// the other instances that the last event changed, but at most this many.
const INSTANCES = 6;
// At first, a history shows only this many commands, the newest ones.
const COMMANDS = 8;

const COLUMNS = [
  ['', 'instance'], ['promised', 'the greatest ballot that it promised or accepted'],
  ['vote', 'value@ballot that it accepted last'], ['learned', 'the value that it learned'],
];

// The instances of a table: those that the server heard of or acted on, and the one that it executes next.
function instancesOf({ trace }, server) {
  const { next } = trace.closing[server], known = new Set(trace.slots[server].keys());
  if (known.size > 0) known.add(next);
  return [...known].sort(byNumber);
}

const byNumber = (one, other) => one - other;

function table(now, server) {
  const instances = instancesOf(now, server), { next } = now.trace.closing[server];
  if (instances.length === 0) return null;
  const [older, later] = [`older${server}`, `later${server}`], start = instances.indexOf(next);
  const from = dock.whole.has(older) ? 0 : start;
  const to = dock.whole.has(later) ? instances.length : Math.min(instances.length, start + INSTANCES);
  const outside = [...instances.slice(0, from), ...instances.slice(to)];
  const changed = outside.filter(instance => isChanged(now, server, instance)).slice(0, INSTANCES);
  const shown = [...changed, ...instances.slice(from, to)].sort(byNumber);
  const before = from - changed.filter(instance => instance < next).length;
  const left = instances.length - before - shown.length;
  const caption = el('caption', { class: 'unseen' }, `instances at server ${server}`);
  return el('div', { class: 'knowledge' },
    before > 0 ? wholeButton(older, `${before} executed ..`, `show ${count(before, 'executed instance')}`) : null,
    el('table', {}, caption,
      el('thead', {}, el('tr', {}, ...COLUMNS.map(([name, title]) => el('th', { title, scope: 'col' }, name)))),
      el('tbody', {}, ...shown.flatMap(instance => rowsOf(now, server, instance)))),
    left > 0 ? wholeButton(later, `${left} later ..`, `show ${count(left, 'later instance')}`) : null);
}

// Whether the last event changed what a server knows of an instance.
const isChanged = ({ trace }, server, instance) => trace.slot(server, instance).at === trace.events.length - 1;

function rowsOf(now, server, instance) {
  const { schedule, trace } = now, slot = trace.slot(server, instance), { promised, vote, learned } = slot;
  const isNext = instance === trace.closing[server].next, isLast = isChanged(now, server, instance);
  const cell = (field, classes, ...parts) =>
    el('td', { class: isLast && slot.fields.includes(field) ? `${classes} changed` : classes }, ...parts);
  const command = value => (trace.commands.has(value) ? el('small', {}, ` ${trace.commands.get(value)}`) : null);
  // Two parts, because a narrow card shows the ballot of a vote below its value.
  const voted = vote ? [vote.value, `@b${vote.ballot}`].map(part => el('span', {}, part)) : [written(null)];
  const isTwice = learned !== null && learned === vote?.value;
  const title = isNext ? 'the server executes this instance next' : null;
  const first = el('tr', { class: isNext ? 'next' : null, title },
    el('th', { scope: 'row', class: ownerOf(instance, schedule.servers) }, `i${instance}`),
    cell('promised', '', written(promised ? `b${promised}` : null)),
    cell('vote', 'vote', ...voted, isTwice ? '' : command(vote?.value) ?? ''),
    cell('learned', 'learned-value', written(learned), command(learned)));
  const told = learned ? [] : attemptOf(slot);
  if (told.length === 0) return [first];
  const isAttempt = isLast && slot.fields.some(field => !['promised', 'vote', 'learned'].includes(field));
  const second = el('td', { colspan: 3, class: isAttempt ? 'changed' : null }, told.join(', '), command(slot.proposal));
  return [first, el('tr', { class: 'tries' }, el('td'), second)];
}

// The server's own attempt to decide an instance.
function attemptOf({ tried, promises, proposal, acceptances }) {
  const tells = [tried ? `tries b${tried}` : null, promises && `promises ${promises}`,
    proposal && `proposed ${proposal}`, acceptances && `accepted by ${acceptances}`];
  return tells.filter(Boolean);
}

// ---- the commands that a server executed

// The value that the last event executed at a server, or null.
function executedNow({ events }, server) {
  const line = events.at(-1)?.lines.find(text => text.startsWith(`executed ${server} `));
  return line ? line.split(' ')[5] : null;
}

function historyOf({ trace }, server) {
  const done = trace.histories[server], list = `history${server}`, now = executedNow(trace, server);
  const hidden = dock.whole.has(list) ? 0 : Math.max(0, done.length - COMMANDS);
  const rows = done.slice(hidden).map(id =>
    el('li', { class: id === now ? 'changed' : null }, el('b', {}, id), ` ${trace.commands.get(id)}`));
  return el('div', { class: 'history' }, el('h3', {}, 'history'),
    hidden > 0 ? wholeButton(list, `show ${hidden} older ..`) : null,
    done.length === 0 ? el('code', {}, '–') : el('ol', {}, ...rows));
}

// ---- the map of a server

// The latest maps, by the texts of their questions.
const MAPS_KEPT = 64;
const maps = new Map();

// The program has no call for a map. So a cluster of one server executes the same commands in the same order, and then
// looks up each key. The replies of the program are the map. Returns pairs of a key and a text.
function mapAfter(commands, coreCall) {
  const keys = [...new Set(commands.map(([, operation]) => operation.split(' ')[1]))].sort();
  const used = new Set(commands.map(([id]) => id)), asked = [];
  for (let number = 0; asked.length < keys.length; number += 1) {
    if (!used.has(`0.${number}`)) asked.push([`0.${number}`, `get ${keys[asked.length]}`]);
  }
  const texts = [...commands, ...asked].flatMap(([id, operation], index) =>
    [`submit 0 ${id} ${operation}`, `deliver ${3 * index} 0`, `deliver ${3 * index + 1} 0`, 'execute 0']);
  const question = asScenario({ ...emptyOf({ servers: 1 }), events: texts });
  if (!maps.has(question)) {
    const replies = repliesIn(coreCall(['replay'], question).printed);
    const found = asked.map(([id], index) => [keys[index], replies.get(id)]);
    maps.set(question, found.filter(([, reply]) => reply !== 'none' && reply !== undefined));
    if (maps.size > MAPS_KEPT) maps.delete(maps.keys().next().value);
  }
  return maps.get(question);
}

function mapOf({ trace }, server) {
  const commands = trace.histories[server].map(id => [id, trace.commands.get(id)]);
  const after = some => (some.length === 0 ? [] : mapAfter(some, (args, input) => core.call(args, input)));
  const rows = after(commands), isNew = trace.commands.has(executedNow(trace, server));
  const former = new Map(isNew ? after(commands.slice(0, -1)) : rows);
  const items = rows.map(([key, reply]) =>
    el('li', { class: former.get(key) === reply ? null : 'changed' }, el('b', {}, key), ` ${reply}`));
  return el('div', { class: 'map' }, el('h3', {}, 'map'),
    items.length === 0 ? el('code', {}, '–') : el('ul', {}, ...items));
}
