'use strict';
// Shows the log of the text area as a timeline in place of the picture. Only the rows in sight are in the page.

// In pixels. A bar has the height of a row for each of its lines.
const ROW = 24, HEADS = 30, NARROWEST_BAR = 92, WIDEST_BAR = 160, MARK = 92, BETWEEN = 10;
// Rows above and below those in sight that are in the page too.
const SPARE = 20;

// `first` and `last` are the rows in the page. `lit` is the command whose marks are lit, or null.
const board = { timeline: null, first: 0, last: -1, lit: null, place: null };

// ---- a new verdict

// Shows the timeline of a log with the verdict of the program. `printed` and `said` are its texts.
function fillTimeline(text, { printed, said }) {
  const found = [...(printed || said).matchAll(/^line (\d+): (.*)$/gm)]
    .map(([, number, content]) => ({ number: +number, text: content }));
  const quoted = found.length > 0 ? found : lineOfViolation(text, printed);
  const numbers = quoted.map(({ number }) => number).sort((one, other) => one - other);
  const timeline = new Timeline(numbers);
  const isLong = text.length > JUDGED_AT_ONCE, show = () => showTimeline(timeline, printed ? quoted : []);
  inPieces('timeline', timeline.reading(text), isLong, show);
}

// The line that a violation names. For some violations of what clients saw, the program quotes no lines.
function lineOfViolation(text, printed) {
  const number = +/^violation (\d+) /.exec(printed)?.[1], place = number ? placeOfLine(text, number) : null;
  return place ? [{ number, text: text.slice(...place) }] : [];
}

// Shows a timeline that has read its log. `quoted` are the quoted lines that get a button.
function showTimeline(timeline, quoted) {
  board.timeline = timeline;
  board.lit = null;
  board.last = -1;
  showLogOverview();
  arrangeLanes(board.timeline.lanes);
  $('timeline-verdict').className = $('judgement').className;
  $('timeline-verdict').textContent = $('judgement').textContent;
  $('timeline-words').textContent = $('in-words').textContent;
  $('left-out').textContent = leftOut(board.timeline);
  fillQuoted(quoted);
  fillLaneHeads();
  showCard();
  later('overview', 0, drawOverview);
  // The place stays while the user edits the log, unless the verdict quotes other lines.
  const place = timeline.quoted.join(' ');
  if (place !== board.place && timeline.quoted.length > 0) goToLine(timeline.quoted.at(-1));
  board.place = place;
  showRows();
}

// Says that the verdict on a long log is not known yet.
function showJudging() {
  for (const id of ['timeline-words', 'quoted-lines', 'left-out']) $(id).replaceChildren();
  showVerdict('timeline-verdict', 'judging ..');
}

const columnsOf = ({ ends }) => Math.max(1, Math.min(MOST_BARS, ends.length));

// Gives each lane its place and width. Bars are as wide as the window allows, within bounds.
function arrangeLanes(lanes) {
  const clients = lanes.filter(({ group }) => group === 'client');
  const columns = clients.reduce((sum, lane) => sum + columnsOf(lane), 0);
  const others = (lanes.length - clients.length) * MARK + (lanes.length + 1) * BETWEEN;
  const room = $('log-stage').clientWidth - $('log-rows').offsetWidth - others;
  board.bar = Math.max(NARROWEST_BAR, Math.min(WIDEST_BAR, Math.floor(room / Math.max(1, columns))));
  let left = BETWEEN;
  for (const lane of lanes) {
    const width = lane.group === 'client' ? columnsOf(lane) * board.bar : MARK;
    Object.assign(lane, { left, width });
    left += width + BETWEEN;
  }
  board.width = left;
  $('board-of-log').style.setProperty('--lanes', `${left}px`);
  $('board-of-log').style.setProperty('--all-rows', `${board.timeline.rows.length * ROW}px`);
}

function fillLaneHeads() {
  const { lanes, rows } = board.timeline;
  $('lane-heads').replaceChildren(el('span', { class: 'corner-of-log' }, 'line'),
    ...lanes.map(lane => el('b', { class: laneClass(lane), style: placeOf(lane) }, lane.title)));
  $('no-lines').hidden = rows.length > 0;
}

const placeOf = ({ left, width }) => `left:${left}px;width:${width}px`;
const laneClass = ({ group, name }) =>
  (group === 'server' ? `lane-of-server owner${(name ?? 0) % 7}` : `lane-of-${group}`);

// A button for each quoted line.
function fillQuoted(quoted) {
  $('quoted-lines').replaceChildren(...quoted.map(({ number, text }) =>
    el('button', { 'data-line': number, title: `go to line ${number}` }, `line ${number}: ${text}`)));
}

// ---- the rows in sight

// The first and last row in sight, and the spare ones around them. The place may still be that of a longer log.
function windowOfRows() {
  const { scrollTop, clientHeight } = $('log-stage'), last = board.timeline.rows.length - 1;
  const first = Math.min(Math.floor(scrollTop / ROW), Math.max(0, last));
  return [Math.max(0, first - SPARE), Math.min(last, first + Math.ceil(clientHeight / ROW) + SPARE)];
}

// Fills the page with the rows in sight, unless it has them.
function showRows(isForced = false) {
  const { timeline } = board;
  if (!timeline || $('timeline').offsetWidth === 0) return;
  const [first, last] = windowOfRows(), half = SPARE / 2;
  const isDone = board.last >= 0 && first >= board.first - half && first <= board.first + half
    && last <= board.last + half && last >= board.last - half;
  moveView();
  if (isDone && !isForced) return;
  Object.assign(board, { first, last });
  const focused = document.activeElement?.dataset?.bar;
  const rows = timeline.rows.slice(first, last + 1).map((row, at) => rowOfLog(row, first + at));
  $('log-rows').replaceChildren(...rows);
  const bars = timeline.bars.filter(bar => bar.column !== null && bar.from <= last && bar.to >= first).map(barOf);
  const marks = timeline.marks.slice(first, last + 1).flatMap(mark => (mark ? partsOf(mark) : []));
  $('log-lanes').replaceChildren(...laneLines(timeline), chainOf(timeline), ...marks, ...bars);
  if (focused) $('log-lanes').querySelector(`[data-bar="${CSS.escape(focused)}"]`)?.focus({ preventScroll: true });
}

const styleAt = (left, row, width, rows = 1) =>
  `left:${left}px;top:${row * ROW}px;width:${width}px;height:${rows * ROW - 4}px`;
const isQuoted = row => board.timeline.quotedRows.includes(row);
const classes = (...names) => names.filter(Boolean).join(' ');

function rowOfLog({ number, text }, row) {
  const isAfter = number > board.timeline.judged;
  const name = classes(isQuoted(row) && 'quoted-row', number === null && 'gone', isAfter && 'not-judged');
  return el('li', { class: name, style: `top:${row * ROW}px`, title: text }, el('b', {}, String(number ?? '')),
    isQuoted(row) ? el('span', { class: 'unseen' }, 'quoted: ') : null, ` ${text}`);
}

const laneLines = ({ lanes }) => lanes.map(lane =>
  el('i', { class: classes('lane-line', laneClass(lane)), style: placeOf(lane) }));

// The bar of a command. Its label stays in sight. A bar without a reply has no end, and one without a submission no
// beginning.
function barOf(command) {
  const { id, text, from, to, lane, column, submitted, replied } = command, story = storyOf(board.timeline, command);
  const isInQuote = [from, to].some(row => isQuoted(row) && board.timeline.marks[row]?.isEnd);
  const name = classes('bar', submitted === null && 'no-begin', replied === null && 'no-end', isInQuote && 'quoted',
    board.lit === id && 'lit');
  const style = styleAt(lane.left + column * board.bar, from, board.bar - 4, to - from + 1);
  return el('div', { class: name, style, role: 'button', tabindex: 0, title: story, 'aria-label': story, 'data-id': id,
    'data-bar': id }, el('span', {}, el('b', {}, id), text ? ` ${text}` : ''));
}

// The mark of a line, and its connection with the bar of its command. The ends of a bar have no mark.
function partsOf(mark) {
  const { row, id, label, lane, isEnd, isExecution } = mark, command = board.timeline.commands.get(id);
  if (isEnd) return [];
  const left = isExecution || !command || command.column === null ? lane.left : lane.left + command.column * board.bar;
  const isLit = id !== null && board.lit === id, width = isExecution ? MARK : Math.min(lane.width, WIDEST_BAR);
  const name = classes('mark', isExecution && 'execution', laneClass(lane), isQuoted(row) && 'quoted', isLit && 'lit');
  const title = board.timeline.rows[row].text;
  const made = [el('div', { class: name, style: styleAt(left, row, width - 4), 'data-id': id, title }, label)];
  if (isExecution && command.column !== null) {
    const start = command.lane.left + (command.column + 1) * board.bar - 4;
    const kind = classes('thread', row > command.to && 'late', isLit && 'lit');
    made.unshift(el('i', { class: kind, 'data-id': id, style: styleAt(start, row, lane.left - start) }));
  }
  return made;
}

// ---- the connection of the quoted lines

const svgOf = (tag, attributes) => {
  const made = document.createElementNS('http://www.w3.org/2000/svg', tag);
  for (const [name, value] of Object.entries(attributes)) made.setAttribute(name, value);
  return made;
};

// The middle of the mark of a row, in pixels of the lanes, or null if the row has no mark.
function pointOf({ marks, commands }, row) {
  const mark = marks[row];
  if (!mark) return null;
  const command = commands.get(mark.id), isInBar = command && !mark.isExecution && command.column !== null;
  const left = mark.lane.left + (isInBar ? (command.column + 0.5) * board.bar : MARK / 2) - 2;
  return [left, (row + 0.5) * ROW];
}

// A line through the marks of the quoted lines, in the part of the lanes that is in the page.
function chainOf(timeline) {
  const top = board.first * ROW, height = (board.last - board.first + 1) * ROW;
  const chain = svgOf('svg', { id: 'chain', width: board.width, height, 'aria-hidden': true, style: `top:${top}px` });
  const points = timeline.quotedRows.map(row => pointOf(timeline, row)).filter(point => point !== null);
  chain.append(svgOf('polyline', { points: points.map(([x, y]) => `${x},${y - top}`).join(' ') }));
  return chain;
}

// ---- the overview

// Shows a strip with the whole timeline if it does not fit into the window.
function showLogOverview() {
  const { clientHeight } = $('log-stage'), isNeeded = board.timeline.rows.length * ROW > 1.5 * clientHeight;
  $('overview').classList.toggle('unneeded', !isNeeded);
}

function drawOverview() {
  const { timeline } = board, { rows } = timeline;
  if ($('overview').classList.contains('unneeded')) return;
  const bars = timeline.bars.filter(({ column }) => column !== null)
    .map(({ lane, column, from, to }) => `M${lane.left + (column + 0.5) * board.bar} ${from}V${to + 1}`).join('');
  const executions = timeline.marks.filter(mark => mark?.isExecution)
    .map(({ lane, row }) => `M${lane.left} ${row}h${MARK}`).join('');
  const quoted = timeline.quotedRows.map(row => `M0 ${row + 0.5}h${board.width}`).join('');
  const picture = svgOf('svg', { viewBox: `0 0 ${board.width} ${rows.length}`, preserveAspectRatio: 'none' });
  for (const [name, d] of [['bars', bars], ['executions', executions], ['quotes', quoted]]) {
    picture.append(svgOf('path', { class: name, d }));
  }
  $('overview').replaceChildren(picture, el('i', { id: 'log-part' }));
  moveView();
}

// Moves the frame in the overview to the rows in sight.
function moveView() {
  const { scrollTop, clientHeight, scrollHeight } = $('log-stage'), view = $('log-part');
  if (!view) return;
  view.style.top = `${100 * scrollTop / scrollHeight}%`;
  view.style.height = `${100 * clientHeight / scrollHeight}%`;
}

function scrollByOverview({ clientY, buttons }) {
  if (buttons !== 1) return;
  const { top, height } = $('overview').getBoundingClientRect(), { scrollHeight, clientHeight } = $('log-stage');
  $('log-stage').scrollTop = (clientY - top) / height * scrollHeight - clientHeight / 2;
}
