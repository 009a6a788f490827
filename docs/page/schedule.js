'use strict';
// A schedule has the fields of DATA.members, which describe its cluster, and `events`, which are texts. It never
// changes. Instead, a new schedule replaces it.

// The schedule of a scenario, and a schedule without events that has its members.
const scheduleOf = scenario => ({ ...membersOf(scenario), events: scenario.events });
const emptyOf = scenario => scheduleOf({ ...scenario, events: [] });

// The members of a scenario or of a schedule.
function membersOf(scenario) {
  return Object.fromEntries(Object.entries(DATA.members).map(([name, { unsaid }]) => [name, scenario[name] ?? unsaid]));
}

// The fields of the members that a scenario must contain, each as [name, value].
function saidOf(schedule) {
  return Object.entries(membersOf(schedule)).filter(([name, value]) => value !== DATA.members[name].unsaid);
}

// The least version that contains all operations of the events. The journal of a run has this version too.
function versionOf(events) {
  const { versions } = DATA.operations;
  const needed = event => event.startsWith('submit') && versions[/^submit \d+ [\d.]+ (\w+) /.exec(event)?.[1]];
  return events.reduce((least, event) => Math.max(least, needed(event) || 1), 1);
}

// A step needs the text of a schedule several times, and the schedule may be long.
const scenarios = new WeakMap();

function asScenario(schedule) {
  const { events } = schedule;
  if (!scenarios.has(schedule)) {
    const scenario = { version: versionOf(events), ...Object.fromEntries(saidOf(schedule)), events };
    scenarios.set(schedule, JSON.stringify(scenario));
  }
  return scenarios.get(schedule);
}

function asFile(schedule) {
  const { events } = schedule;
  const size = fieldsOf([['version', versionOf(events)], ...saidOf(schedule)]);
  const lines = events.map(event => '  ' + JSON.stringify(event)).join(',\n');
  return `{${size}, "events": [${events.length ? `\n${lines}\n` : ''}]}\n`;
}

const fieldsOf = numbers => numbers.map(([name, value]) => `"${name}": ${value}`).join(', ');

// The schedule from the text of a scenario. The program must have checked the text.
function readScenario(text) {
  return scheduleOf(JSON.parse(text));
}

// The first events of a schedule. A whole schedule keeps the text that `asScenario` made for it.
function prefixOf(schedule, length) {
  return length >= schedule.events.length ? schedule : { ...schedule, events: schedule.events.slice(0, length) };
}

// The schedule with more events at its end. Its text begins with that of the schedule, so a long one is not written
// again.
function withEvents(schedule, added) {
  const longer = { ...schedule, events: [...schedule.events, ...added] };
  if (schedule.events.length > 0 && versionOf(added) === 1) {
    const more = added.map(event => `,${JSON.stringify(event)}`).join('');
    scenarios.set(longer, `${asScenario(schedule).slice(0, -']}'.length)}${more}]}`);
  }
  return longer;
}

const withEvent = (schedule, event) => withEvents(schedule, [event]);
const scenarioAfter = (schedule, event) => asScenario(withEvent(schedule, event));

// ---- the place of a mistake in a text, from the words of the program

// The places of the items of a list, each as [start, end]. The bracket of the list is at `open`.
function itemsOf(text, open) {
  const items = [];
  let depth = 0, start = -1;
  const finish = end => { if (start >= 0) items.push([start, end]); start = -1; };
  for (let at = open + 1; at < text.length; at += 1) {
    const letter = text[at];
    if (depth === 0 && (letter === ',' || letter === ']')) {
      finish(text.slice(0, at).trimEnd().length);
      if (letter === ']') break;
      continue;
    }
    if (start < 0 && !/\s/.test(letter)) start = at;
    if (letter === '"') at = endOfString(text, at);
    else if ('[{'.includes(letter)) depth += 1;
    else if (']}'.includes(letter)) depth -= 1;
  }
  return items;
}

function endOfString(text, at) {
  for (at += 1; at < text.length && text[at] !== '"'; at += 1) if (text[at] === '\\') at += 1;
  return at;
}

// The places of the items of the list in a field.
function itemsOfField(text, name) {
  const field = new RegExp(`"${name}"\\s*:\\s*\\[`).exec(text);
  return field ? itemsOf(text, field.index + field[0].length - 1) : [];
}

function placeOfLine(text, number, column) {
  const lines = text.split('\n');
  const row = Math.min(number, lines.length) - 1;
  const start = lines.slice(0, row).reduce((sum, line) => sum + line.length + 1, 0);
  if (!column) return [start, start + lines[row].length];
  const at = start + [...lines[row]].slice(0, column - 1).join('').length;
  const word = /^\w+/.exec(text.slice(at));
  return [at, Math.min(at + (word ? word[0].length : 1), text.length)];
}

// The place that the words of a fault name, as [start, end] in the text, or null if they name no place.
function placeOfMistake(text, words) {
  const line = /^line (\d+)(?:, column (\d+))?/.exec(words);
  if (line) return placeOfLine(text, +line[1], line[2] && +line[2]);
  const event = /^event (\d+)/.exec(words);
  if (event) return itemsOfField(text, 'events')[+event[1]] ?? null;
  const command = /^command (\d+) of list (\d+)/.exec(words);
  if (command) {
    const list = itemsOfField(text, 'commands')[+command[2]];
    return list ? itemsOf(text, list[0])[+command[1]] ?? list : null;
  }
  const field = /^the field "(\w+)"/.exec(words) || /^"([^"]*)" is no field/.exec(words);
  if (!field) return null;
  const at = text.indexOf(`"${field[1]}"`);
  if (at < 0) return null;
  const value = /^"[^"]*"\s*:\s*[^\s,}\]]*/.exec(text.slice(at));
  return [at, at + (value ? value[0].length : field[1].length + 2)];
}
