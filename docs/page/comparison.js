'use strict';
// The output of the user's store next to that of the reference. The page goes to the first event that differs. At each
// step, it shows the lines of both for the last event.

// In letters. The browser needs seconds to lay out a longer text in a field.
const LONGEST_IN_FIELD = 200_000;
const LONGEST_LINE = 400;
// In a sentence.
const LONGEST_EVENT = 60;
// The lines of an event that are shown, at most.
const LINES_SHOWN = 60;
// Characters that the browser does not show, or that change the direction of others.
const UNSEEN = /[\p{C}\p{Zl}\p{Zp}]/gu;

// `result` is the difference between `text` and the reference for `schedule`. `name` is that of a file, or null.
const beside = { text: '', name: null, schedule: null, result: null };

const visible = line => (line.length > LONGEST_LINE ? `${line.slice(0, LONGEST_LINE)} ..` : line)
  .replace(UNSEEN, letter => (letter === '\r' ? '\\r' : `\\u{${letter.codePointAt(0).toString(16)}}`));

const isOutput = text => OF_OUTPUT.test(text);

// Shows the output in a file. The field does not contain a long one, and no field keeps carriage returns.
function openOutput(name, text) {
  Object.assign(beside, { text, name });
  setTab('compare');
  $('output').value = text.length <= LONGEST_IN_FIELD ? text : '';
  const isLong = text.length > LONGEST_IN_FIELD;
  $('output').placeholder = isLong ? `${name} is too long for this field, but it is compared.` : '';
  compareOutput();
  say(`${name}: ${$('difference').textContent || 'The file is empty.'}`);
}

function writeOutput() {
  Object.assign(beside, { text: $('output').value, name: null });
  compareOutput();
}

// Compares the output with the reference, and goes to the first event that differs.
function compareOutput() {
  beside.schedule = null;
  showComparison();
  const { part } = beside.result;
  if (part && !['silence', 'no format'].includes(part)) goToDifference();
}

const goToDifference = () => go(beside.result.event + 1);
const isAtDifference = ({ event }) => page.cursor === Math.min(event + 1, page.schedule.events.length);

// Shows the comparison for the schedule and the cursor of the page. A changed schedule is compared anew.
function showComparison() {
  const { schedule, whole, cursor } = page;
  if (beside.schedule !== schedule) {
    const report = core.call(['replay'], asScenario(schedule)).printed;
    Object.assign(beside, { schedule, result: differenceOf(whole.text + report, beside.text) });
    const { part } = beside.result;
    showVerdict('difference', inWords(beside.result, schedule), part !== null && part !== 'silence');
    $('remarks').replaceChildren(...remarksOn(beside.result, schedule).map(remark => el('li', {}, remark)));
    fillPair(beside.result);
  }
  const { result } = beside, isCompared = result.expected !== null || result.found !== null;
  $('to-difference').hidden = !isCompared || isAtDifference(result);
  fillSides(result, cursor - 1);
}

// ---- words

function inWords({ part, event, ours, theirs, tally, found, isCause, number }, schedule) {
  const whole = schedule.events[event] ?? null, isLong = whole?.length > LONGEST_EVENT;
  const text = isLong ? `${whole.slice(0, LONGEST_EVENT)} ..` : whole;
  switch (part) {
    case 'silence': return '';
    case 'no format': return 'This is neither a trace nor a report. A trace has lines such as “event 0 execute 0”.';
    case null: return `No difference. ${agreed(ours, theirs, tally)}`;
    case 'end': return 'All events agree. The first difference is in the lines after the last event.';
    case 'report': {
      const where = isCause ? ` In the reference, event ${event} (${text}) causes the line below.`
        : ' The line below does not belong to a single event.';
      return `The report differs from the reference in ${count(number, 'line')}.${where}`;
    }
    default: {
      const ends = found === null && theirs.events.length <= event ? ' The trace of your store ends before it.' : '';
      return text === null ? `Your store goes on after the last event, with event ${event}.`
        : `The first difference is at event ${event} (${text}).${ends}`;
    }
  }
}

function agreed(ours, theirs, { lines, trace }) {
  const kinds = [...theirs.kinds()].filter(kind => [...TRACE_KINDS, 'server', 'unheard'].includes(kind));
  const parts = [];
  if (theirs.isTrace) {
    parts.push(`${count(ours.events.length, 'event')} with ${count(trace, 'line')} of a trace (${kinds.join(', ')})`);
  }
  if (theirs.report.length > 0) parts.push(`${count(lines - trace, 'line')} of a report`);
  const isOne = parts.length === 1 && (theirs.isTrace ? ours.events.length : lines) === 1;
  return `${parts.join(' and ')} ${isOne ? 'agrees' : 'agree'}.`;
}

// What the user may not see in the lines.
function remarksOn({ part, ours, theirs, tally, expected, found }, schedule) {
  const remarks = [], { returns, hasOnlyReturns } = theirs;
  const rule = 'A store must end each line with a line feed alone.';
  if (hasOnlyReturns) remarks.push(`The lines end in a carriage return instead of a line feed. ${rule}`);
  else if (returns > 0) {
    const verb = returns === 1 ? 'ends' : 'end';
    remarks.push(`${count(returns, 'line')} of your store ${verb} in a carriage return. ${rule}`);
  }
  if (tally.spaces.length > 0) {
    const [first] = tally.spaces;
    const verb = tally.spaces.length === 1 ? 'differs' : 'differ';
    remarks.push(`${count(tally.spaces.length, 'line')} of your store ${verb} only in the spaces at the end. The first`
      + ` is line ${first}. conformance/compare reports this as a difference.`);
  }
  if (theirs.servers !== null && theirs.servers !== ours.servers) {
    remarks.push(`Your store ran ${visible(theirs.servers)} servers. The schedule has ${schedule.servers}.`);
  }
  if (part === 'trace' && expected && found && kindOf(expected.line) === 'event') {
    remarks.push('The events are different, so your store ran another schedule. Open that schedule first.');
  }
  return remarks;
}

// ---- lines

// The two lines of the first difference. The part in which they differ is marked.
function fillPair({ expected, found }) {
  const isEmpty = !expected && !found;
  $('pair').hidden = isEmpty;
  $('pair').tBodies[0].replaceChildren();
  if (isEmpty) return;
  const lines = [expected, found].map(entry => (entry ? visible(bare(entry.line)) : null));
  const row = (name, at) =>
    el('tr', {}, el('th', { scope: 'row' }, name), el('td', {}, ...marked(lines[at], lines[1 - at])));
  const place = found ? `your store, line ${found.number}` : 'your store';
  $('pair').tBodies[0].replaceChildren(row('reference', 0), row(place, 1));
}

function marked(line, other) {
  if (line === null) return [el('i', { class: 'soft' }, 'no such line')];
  if (other === null) return [el('b', {}, line)];
  const words = line.split(' '), others = other.split(' ');
  return words.flatMap((word, at) => [at > 0 ? ' ' : null, word === others[at] ? word : el('b', {}, word)])
    .filter(part => part !== null);
}

// The lines of both for an event. Lines of kinds that the store does not print are pale.
function fillSides({ part, ours, theirs, expected, found }, event) {
  const isShown = theirs.isTrace && event >= 0;
  $('sides').hidden = !isShown;
  if (!isShown) return;
  const kinds = theirs.kinds();
  const list = (name, entries, mark) => [el('h3', {}, name), el('ol', {},
    ...entries.slice(0, LINES_SHOWN).map(entry => lineOf(entry, kinds, part === 'trace' && entry === mark)),
    entries.length > LINES_SHOWN ? el('li', { class: 'soft' }, `and ${entries.length - LINES_SHOWN} more lines`) : null,
    entries.length === 0 ? el('li', { class: 'soft' }, 'no line') : null)];
  $('sides').replaceChildren(el('h2', {}, `event ${event} in both traces`),
    ...list('reference', ours.events[event] ?? [], expected), ...list('your store', theirs.events[event] ?? [], found));
}

function lineOf(entry, kinds, isMarked) {
  const isCompared = kinds.has(kindOf(entry.line));
  const said = isMarked ? el('span', { class: 'unseen' }, 'differs: ') : null;
  return el('li', { class: isMarked ? 'differs' : isCompared ? null : 'soft' }, said, visible(bare(entry.line)));
}

function wireComparison() {
  $('output').oninput = () => later('compare', 200, writeOutput);
  $('open-output').onclick = () => $('file').click();
  $('output-schedule').onclick = saveSchedule;
  $('to-difference').onclick = goToDifference;
}
