'use strict';
// The lines of a log as a timeline. Each command has a bar from its submission to its first reply, and each other
// observation has a mark in the lane of its client, server or reader. This file only arranges the lines. The verdict on
// them comes from the program.

// In lines. If a log is longer, the timeline shows only the parts around the quoted lines.
const MOST_LINES = 20_000;
// Clients, servers or readers with a lane of their own. The others of the same kind share a lane.
const MOST_LANES = 24;
// Bars next to each other in a lane.
const MOST_BARS = 16;
const GROUPS = ['client', 'server', 'reader'];
// In lines: so many are read without a pause.
const AT_A_TIME = 500;

// The forms of the lines. The first two words of a command's identity are its client and its number.
const FORMS = {
  submit: /^submit (\d+\.\d+) (.*)$/, execute: /^execute (\d+) (\d+\.\d+)$/, reply: /^reply (\d+\.\d+) (.*)$/,
  lookup: /^lookup (\d+) (\S+ .*)$/, told: /^told (\d+) (\d+)$/, settled: /^settled (\d+)$/,
  restore: /^restore (\d+) (\d+) (\d+)$/,
};

// ---- the lines that are shown

function countLines(text) {
  let lines = 0;
  for (let at = text.indexOf('\n'); at >= 0; at = text.indexOf('\n', at + 1)) lines += 1;
  return text === '' || text.endsWith('\n') ? lines : lines + 1;
}

// The shown parts of a log, each as the numbers of its first and last line.
function shownParts(total, quoted) {
  if (total <= MOST_LINES) return total > 0 ? [[1, total]] : [];
  if (quoted.length === 0) return [[1, MOST_LINES]];
  const around = Math.floor(MOST_LINES / quoted.length / 2), parts = [];
  for (const line of quoted) {
    const first = Math.max(1, line - around), last = Math.min(total, line + around - 1);
    if (parts.length > 0 && first <= parts.at(-1)[1] + 1) parts.at(-1)[1] = Math.max(parts.at(-1)[1], last);
    else parts.push([first, last]);
  }
  return parts;
}

// The rows of a timeline: shown lines with their numbers, and a row without a number in place of each part left out.
function shownRows(text, total, quoted) {
  const rows = [];
  let start = 0, number = 1;
  const skip = to => {
    if (number < to) rows.push({ number: null, gone: to - number, text: goneText(number, to - 1) });
    for (; number < to; number += 1) start = text.indexOf('\n', start) + 1;
  };
  for (const [first, last] of shownParts(total, quoted)) {
    skip(first);
    for (; number <= last; number += 1) {
      const end = text.indexOf('\n', start), stop = end < 0 ? text.length : end;
      rows.push({ number, gone: 0, text: text.slice(start, stop).replace(/\r$/, '') });
      start = stop + 1;
    }
  }
  if (number <= total) rows.push({ number: null, gone: total + 1 - number, text: goneText(number, total) });
  return rows;
}

const goneText = (first, last) =>
  (first === last ? `line ${first} is left out` : `lines ${first} to ${last} are left out`);

// ---- bars and marks

class Timeline {
  // `quoted` contains the numbers of the lines that a verdict quotes, in ascending order.
  constructor(quoted) {
    Object.assign(this, { quoted, commands: new Map(), marks: [], lanes: [] });
  }

  // Reads a log. A long one takes more time than the page may be blocked, so there are pauses between the steps.
  * reading(text) {
    const { quoted } = this;
    this.total = countLines(text);
    // The verdict depends on the lines up to this one. The last quoted line ends the judgement.
    this.judged = quoted.at(-1) ?? this.total;
    yield;
    this.rows = shownRows(text, this.total, quoted);
    for (const [row, { text: line }] of this.rows.entries()) {
      if (row % AT_A_TIME === 0) yield;
      this.read(line, row);
    }
    for (const group of GROUPS) { yield; this.addLanes(group); }
    yield;
    this.bars = [...this.commands.values()].sort((one, other) => one.from - other.from);
    for (const bar of this.bars) this.place(bar);
    this.hidden = this.bars.filter(({ column }) => column === null).length;
    this.quotedRows = quoted.map(number => this.rowOf(number)).filter(row => row >= 0);
  }

  read(line, row) {
    const kind = line.split(' ', 1)[0], found = Object.hasOwn(FORMS, kind) ? FORMS[kind].exec(line) : null;
    this.marks.push(found ? READ_LINE[kind](this, row, ...found.slice(1)) : null);
  }

  // A command. Its bar begins at its submission, or at the first line that names it.
  command(id, row) {
    if (!this.commands.has(id)) {
      const fields = { id, client: id.split('.')[0], from: row, to: row, text: '', executions: [] };
      this.commands.set(id, { ...fields, submitted: null, replied: null, reply: '' });
    }
    const command = this.commands.get(id);
    if (command.replied === null) command.to = row;
    return command;
  }

  rowOf(number) {
    return this.rows.findIndex(row => row.number === number);
  }

  // Gives a lane to each client, server or reader. In a lane, `ends` contains the last row of each column of bars.
  addLanes(group) {
    const marks = this.marks.filter(mark => mark?.group === group), laneOf = new Map();
    const commands = group === 'client' ? [...this.commands.values()] : [];
    const all = new Set([...marks.map(({ name }) => name), ...commands.map(({ client }) => client)]);
    const names = [...all].sort((one, other) => one - other);
    const own = names.length <= MOST_LANES + 1 ? names.length : MOST_LANES;
    const shared = newLane(group, `${names.length - own} more ${group}s`, null);
    names.forEach((name, at) => laneOf.set(name, at < own ? newLane(group, `${group} ${name}`, name) : shared));
    this.lanes.push(...new Set(laneOf.values()));
    for (const mark of marks) mark.lane = laneOf.get(mark.name);
    for (const command of commands) command.lane = laneOf.get(command.client);
  }

  // Finds the first column of the lane in which a bar has room.
  place(bar) {
    const { ends } = bar.lane;
    const free = ends.findIndex(end => end < bar.from), column = free < 0 ? ends.length : free;
    bar.column = column < MOST_BARS ? column : null;
    if (bar.column !== null) ends[column] = bar.to;
  }
}

const newLane = (group, title, name) => ({ group, title, name, ends: [] });

// Each function returns the mark of a line. `isEnd` marks the first submission or the first reply of a command, which
// are the ends of its bar.
const READ_LINE = {
  submit(timeline, row, id, text) {
    const command = timeline.command(id, row), isFirst = command.submitted === null;
    if (isFirst) Object.assign(command, { submitted: row, text });
    return markOf(row, 'client', command.client, { id, label: `again ${id}`, isEnd: isFirst });
  },
  execute(timeline, row, server, id) {
    timeline.command(id, row).executions.push(row);
    return markOf(row, 'server', server, { id, label: id, isExecution: true });
  },
  reply(timeline, row, id, reply) {
    const command = timeline.command(id, row), isFirst = command.replied === null;
    if (isFirst) Object.assign(command, { replied: row, reply });
    return markOf(row, 'client', command.client, { id, label: `reply ${reply}`, isEnd: isFirst });
  },
  lookup: (_, row, reader, found) => markOf(row, 'reader', reader, { label: found }),
  told: (_, row, reader, server) => markOf(row, 'reader', reader, { label: `told ${server}` }),
  settled: (_, row, server) => markOf(row, 'server', server, { label: 'settled' }),
  restore: (_, row, server, from, number) => markOf(row, 'server', server, { label: `${number} from ${from}` }),
};

const markOf = (row, group, name, more) => ({ row, group, name, id: null, isEnd: false, isExecution: false, ...more });

// ---- words

// What a log shows of a command, for a card and for a screen reader.
function storyOf(timeline, { id, text, submitted, replied, reply, executions }) {
  const line = row => `line ${timeline.rows[row].number}`;
  const parts = [submitted === null ? 'no submission is shown' : `submitted in ${line(submitted)}`];
  const shown = executions.slice(0, 7).map(row => `server ${timeline.marks[row].name} in ${line(row)}`);
  const more = executions.length > shown.length ? ` and ${executions.length - shown.length} more` : '';
  parts.push(shown.length > 0 ? `executed by ${shown.join(', ')}${more}` : 'not executed');
  parts.push(replied === null ? 'no reply' : `reply ${reply} in ${line(replied)}`);
  return `${id}${text ? ` ${text}` : ''}: ${parts.join('; ')}`;
}

// Says what the timeline leaves out.
function leftOut({ total, rows, hidden, lanes, judged, quoted }) {
  const gone = rows.reduce((sum, row) => sum + row.gone, 0), parts = [];
  if (gone > 0) {
    const shown = quoted.length > 0 ? `at most ${MOST_LINES} lines, around those that the verdict quotes`
      : `the first ${MOST_LINES} lines`;
    parts.push(`${gone} of ${total} lines are left out. The timeline shows ${shown}.`
      + ' A command whose submission is left out has a bar without a beginning.');
  }
  if (hidden > 0) {
    const bars = `${count(hidden, 'bar')} ${hidden === 1 ? 'is' : 'are'}`;
    parts.push(`${bars} left out, because a lane shows at most ${MOST_BARS} bars next to each other.`);
  }
  if (judged < total) {
    parts.push(`The verdict does not depend on the ${count(total - judged, 'line')} after line ${judged}.`);
  }
  for (const { title } of lanes.filter(({ name }) => name === null)) parts.push(`${title} share a lane.`);
  return parts.join(' ');
}
