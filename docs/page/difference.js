'use strict';
// Reads the output of a store for a schedule, and finds the first line that differs from the reference. The rules are
// those of conformance/answers.py. In a trace, the lines `event` and `sent` are always compared. Another kind of line
// is compared if the store prints lines of that kind. A report is compared as a whole.

const TRACE_KINDS = new Set(['event', 'refused', 'promises', 'acceptances', 'ignored', 'learned', 'sent', 'front',
  'executed', 'reply']);
const REPORT_KINDS = new Set(['refused', 'servers', 'server', 'reply']);
const ALWAYS = ['event', 'sent'];
const CLOSING = /^(?:server \d+ front \d+ executed |unheard )/;
const REPORT_BEGIN = /^(?:servers \d+ messages |server \d+ front \d+ done )/;
const REPORT_REFUSAL = /^refused \d+(?:\s|$)/;
// The first line of a trace or a report. No line of a log looks like this.
const OF_OUTPUT = /^(?:event \d+ |servers \d+\s|server \d+ front |refused \d+\s)/m;

const kindOf = line => line.split(' ', 1)[0].trimEnd();
const bare = line => line.replace(/[ \t\r]+$/, '');

// ---- the lines of an output

class Output {
  // `events` contains a list of lines for each event. Each line has its number in the text.
  constructor(text) {
    Object.assign(this, { events: [], closing: [], report: [], returns: 0, servers: null, isReport: false });
    const end = text.includes('\n') ? '\n' : '\r';
    this.hasOnlyReturns = end === '\r' && text.includes('\r');
    text.split(end).forEach((line, index) => this.read(line, kindOf(line), index + 1));
  }

  read(line, kind, number) {
    const entry = { line, number };
    if (line.endsWith('\r')) this.returns += 1;
    if (kind === 'event') {
      this.isReport = false;
      this.events.push([entry]);
    } else if (this.isReport || REPORT_BEGIN.test(line) || REPORT_REFUSAL.test(line)) {
      this.isReport ||= REPORT_BEGIN.test(line);
      if (REPORT_KINDS.has(kind)) this.report.push(entry);
    } else if (CLOSING.test(line)) {
      this.closing.push(entry);
    } else if (kind === 'servers') {
      this.servers = bare(line).split(' ')[1];
    } else if (this.events.length > 0 && TRACE_KINDS.has(kind)) {
      this.events.at(-1).push(entry);
    }
  }

  get isTrace() { return this.events.length > 0 || this.closing.length > 0; }

  // The kinds of the lines in the trace that are compared.
  kinds() {
    return new Set([...ALWAYS, ...[...this.events.flat(), ...this.closing].map(({ line }) => kindOf(line))]);
  }
}

// ---- two lines

// Lines that differ only in the spaces or the carriage return at their end agree. The tally counts them.
function agree(expected, found, tally) {
  if (!expected || !found) return false;
  const [ours, theirs] = [bare(expected.line), bare(found.line)];
  // A refusal without its name agrees with every name.
  const isRefusal = ours.startsWith('refused ') && theirs === ours.slice(0, ours.lastIndexOf(' '));
  if (ours !== theirs && !isRefusal) return false;
  tally.lines += 1;
  const isExact = expected.line === found.line.replace(/\r$/, '');
  if (ours === theirs && !isExact) tally.spaces.push(found.number);
  return true;
}

// The first pair of lines at the same place of two lists that do not agree, or null.
function firstPair(expected, found, tally) {
  for (let at = 0; at < Math.max(expected.length, found.length); at += 1) {
    if (!agree(expected[at], found[at], tally)) return { expected: expected[at] ?? null, found: found[at] ?? null };
  }
  return null;
}

// ---- traces and reports

const compared = (entries, kinds) => (entries ?? []).filter(({ line }) => kinds.has(kindOf(line)));

function differInTrace(ours, theirs, tally) {
  const kinds = theirs.kinds(), length = Math.max(ours.events.length, theirs.events.length);
  for (let event = 0; event < length; event += 1) {
    const pair = firstPair(compared(ours.events[event], kinds), compared(theirs.events[event], kinds), tally);
    if (pair) return { part: 'trace', event, ...pair };
  }
  const pair = firstPair(compared(ours.closing, kinds), compared(theirs.closing, kinds), tally);
  return pair && { part: 'end', event: ours.events.length - 1, ...pair };
}

// The words that name the fact of a line in a report, such as `reply 1.0`.
const factOf = ({ line }) => bare(line).split(' ').slice(0, line.startsWith('servers') ? 1 : 2).join(' ');

// The line that differs at the earliest event. If no event of a line is known, the first line that differs.
function differInReport(ours, theirs, tally) {
  const found = new Map([...theirs.report].reverse().map(entry => [factOf(entry), entry]));
  const expected = new Map(ours.report.map(entry => [factOf(entry), entry]));
  const facts = [...new Set([...expected.keys(), ...found.keys()])];
  const pairs = facts.map(fact => ({ expected: expected.get(fact) ?? null, found: found.get(fact) ?? null }))
    .filter(pair => !agree(pair.expected, pair.found, tally));
  if (pairs.length === 0) {
    const pair = firstPair(ours.report, theirs.report, { lines: 0, spaces: [] });
    return pair && { part: 'report', event: ours.events.length - 1, isCause: false, number: 1, ...pair };
  }
  const last = ours.events.length, placed = pairs.map(pair => ({ ...pair, event: eventOf(pair, ours) ?? last }));
  const first = placed.reduce((least, pair) => (pair.event < least.event ? pair : least));
  const isCause = first.event < last;
  return { part: 'report', ...first, event: isCause ? first.event : last - 1, isCause, number: pairs.length };
}

// The event of the reference that causes its line, or null. `ours` contains the trace.
function eventOf({ expected, found }, ours) {
  const line = bare((expected ?? found).line), words = line.split(' ');
  const eventWith = start => {
    const event = ours.events.findIndex(entries => entries.some(entry => entry.line.startsWith(start)));
    return event < 0 ? null : event;
  };
  if (words[0] === 'refused') return +words[1];
  if (words[0] === 'reply') return eventWith(`reply ${words[1]} `);
  if (words[0] !== 'server' || !expected || !found) return null;
  const histories = [expected, found].map(entry => bare(entry.line).split(' history ')[1]?.split(' ') ?? []);
  const place = histories[0].findIndex((id, at) => id !== histories[1][at]);
  return place < 0 ? null : executionAt(ours, words[1], place);
}

// The event at which a server of the reference executed the command at a place of its history, or null.
function executionAt(ours, server, place) {
  let executed = -1;
  for (const [event, entries] of ours.events.entries()) {
    for (const { line } of entries) {
      if (line.startsWith(`executed ${server} `) && !line.endsWith(' no-op')) executed += 1;
      if (executed === place) return event;
    }
  }
  return null;
}

// ---- everything together

// The first difference between the reference and a store. `part` is null if there is none, `silence` for an empty text,
// and `no format` for a text that is neither a trace nor a report.
function differenceOf(reference, text) {
  const ours = new Output(reference), theirs = new Output(text), tally = { lines: 0, spaces: [] };
  const found = { part: null, ours, theirs, tally, event: null, expected: null, found: null };
  if (!theirs.isTrace && theirs.report.length === 0) return { ...found, part: text.trim() ? 'no format' : 'silence' };
  const inTrace = theirs.isTrace ? differInTrace(ours, theirs, tally) : null;
  tally.trace = tally.lines;
  const difference = inTrace ?? (theirs.report.length > 0 ? differInReport(ours, theirs, tally) : null);
  return { ...found, ...difference };
}
