'use strict';
// The picture of the schedule, as `mencius draw` draws it, but only its lanes. A column with the texts of the events
// stays in sight, and so do the names of the servers above. A step only changes classes. A long schedule is drawn in
// parts.

// The number of events that are drawn at once, and the least number of them before and after the cursor.
const DRAWN = 80;
const AROUND = 20;
// If their labels are more than this, only half of the events are drawn. The browser lays out some ten labels in 1 ms.
const MOST_LABELS = 400;
// With a filter, the program draws at most this many events, and the page takes out the hidden ones.
const MOST_FOLDED = 1_500;
// Positions in a picture of `mencius draw`: its left and upper edge, the first lane, and the distance of the lanes.
const LEFT = 296, TOP = 84, FIRST_LANE = 452, APART = 204, HALF_ROW = 12;
const SMALLEST = 0.81;
const EMPTY = 'Nothing has happened. Click “submit ..” below a server to submit a command, or press R for'
  + ' a random event.';

const NOTHING_PASSES = 'No event passes the filter.';

// `rows` are the rows of the events that are shown, as { event, top, height, hidden }. `hidden` is the number of hidden
// events between this row and the former one.
const picture = {
  drawn: null, svg: null, rows: [], zoom: 1, room: 800, left: LEFT, right: 0, width: 800, height: 0, digits: 0,
  servers: 0, sight: 600,
};

function el(tag, attributes = {}, ...children) {
  const made = document.createElement(tag);
  for (const [name, value] of Object.entries(attributes)) {
    if (value === true) made.setAttribute(name, '');
    else if (value !== false && value !== null && value !== undefined) made.setAttribute(name, value);
  }
  made.append(...children.filter(child => child !== null && child !== undefined));
  return made;
}

// The first and the last index of `size` items around a place in a list. Near an end of a longer list, there are fewer.
function partFor(place, length, size) {
  if (length <= size) return [0, length - 1];
  const first = place - Math.ceil(size / 2);
  return [Math.max(0, first), Math.min(length, first + size) - 1];
}

// Whether the drawn part contains the shown events around a cursor.
function isInPart({ from, to, size }, list, cursor) {
  const around = Math.min(AROUND, Math.floor(size / 4)), at = countBelow(list, cursor);
  return from <= Math.max(0, at - around) && to >= Math.min(list.length, at + around) - 1;
}

// The number of events to draw around a place in a list. The trace has a line for each label, except for those of the
// events themselves.
function sizeOfPart({ events }, list, at) {
  const [first, last] = partFor(at, list.length, DRAWN), shown = list.slice(first, last + 1);
  const labels = shown.reduce((sum, event) => sum + events[event].lines.length, 0);
  return labels > MOST_LABELS ? DRAWN / 2 : DRAWN;
}

// The program's picture of the part around a cursor. `list` contains the events that are shown. The part has fewer
// events if the picture would be too large.
function drawnAround(core, { schedule, whole }, list, cursor) {
  const scenario = asScenario(schedule), at = countBelow(list, cursor);
  let answer, part, ends, size = sizeOfPart(whole.trace, list, at);
  for (; size > 0; size = Math.floor(size / 4)) {
    part = partFor(at, list.length, size);
    ends = part.map(index => list[index] ?? 0);
    if (ends[1] - ends[0] > MOST_FOLDED && size > 1) continue;
    answer = core.call(['draw', '--from', String(ends[0]), '--to', String(ends[1])], scenario);
    if (answer.status === 0) break;
  }
  return { answer, drawn: { schedule, list, from: part[0], to: part[1], first: ends[0], size } };
}

// Draws the part around the cursor, unless it is already drawn. If the program refuses to draw it, shows the reason.
function drawPicture(core, page) {
  const { schedule, whole, cursor } = page;
  const { drawn } = picture, list = shownEvents(whole, cursor);
  if (drawn && drawn.schedule === schedule && sameList(drawn.list, list) && isInPart(drawn, list, cursor)) return;
  const made = drawnAround(core, page, list, cursor), { answer } = made;
  picture.drawn = made.drawn;
  if (answer.status !== 0) {
    Object.assign(picture, { svg: null, rows: [] });
    $('rows').replaceChildren();
    $('drawing').textContent = wordsOf(answer.said);
    return;
  }
  // A template is not in the page yet, so these changes need no layout.
  const box = el('template');
  box.innerHTML = lanesOf(answer.printed);
  cutDrawing(box.content.querySelector('svg'), schedule, list);
  makeRoomForNumbers(schedule.events.length);
  fitPicture(schedule.servers);
  markParts(picture.svg, cursor);
  $('drawing').replaceChildren(picture.svg);
  const isEmpty = schedule.events.length === 0;
  if (list.length === 0) $('drawing').append(el('p', { id: 'empty' }, isEmpty ? EMPTY : NOTHING_PASSES));
  fillRows(schedule);
}

// The text of a picture without the cards at its foot and the key below them. The cards of a long schedule contain
// thousands of numbers.
function lanesOf(printed) {
  const foot = printed.indexOf("<g class='foot'");
  return foot < 0 ? printed : `${printed.slice(0, foot)}</svg>`;
}

const sameList = (one, other) =>
  one === other || (one.length === other.length && one.every((event, at) => event === other[at]));

// Removes everything except the lanes from a picture, and hides the events that are not in `list`. Stores the positions
// of the rows. The key in the help contains the styles of all pictures.
function cutDrawing(svg, schedule, list) {
  for (const part of svg.querySelectorAll('.foot, .key, .place, .what, style, :scope > title')) part.remove();
  const rows = fold(svg, rowsOfPicture(svg), list), bottom = bottomOf(svg);
  layArrowsBelow(svg);
  shortenLabels(svg, picture.room);
  backLabels(svg);
  fitBoxes(svg);
  setFarAside(svg);
  picture.rows = rows;
  placeViewBox(svg, schedule, bottom);
  svg.removeAttribute('role');
  const band = svgEl('rect', { id: 'band', x: picture.left, width: 9 * picture.width, height: 0 });
  svg.querySelector('.paper').after(band);
  picture.svg = svg;
}

const bottomOf = svg => +/V(\d+)/.exec(svg.querySelector('.lane .line')?.getAttribute('d') ?? 'V80')[1];

function rowsOfPicture(svg) {
  const events = [...svg.querySelectorAll('.event')], bottom = bottomOf(svg);
  const middleOf = event => +/ (\d+)\)/.exec(event.firstElementChild.getAttribute('transform'))[1];
  const tops = events.map(event => middleOf(event) - HALF_ROW - TOP);
  return tops.map((top, index) =>
    ({ event: +events[index].dataset.e, top, height: (tops[index + 1] ?? bottom - TOP - 2) - top, hidden: 0 }));
}

// The visible part of the drawing. It contains all labels. A long schedule is drawn in parts, so there the visible part
// only grows.
function placeViewBox(svg, { servers, events }, bottom) {
  const isLong = events.length > DRAWN && picture.svg !== null && servers === picture.servers;
  const [left, right] = endsOfLabels(svg), last = FIRST_LANE + (servers - 1) * APART;
  picture.left = Math.min(isLong ? picture.left : LEFT, left);
  picture.right = Math.max(isLong ? picture.right : last + APART, right);
  picture.width = picture.right - picture.left;
  picture.height = Math.max(bottom - TOP, picture.rows.length === 0 ? 90 : 0);
  picture.servers = servers;
  svg.setAttribute('viewBox', `${picture.left} ${TOP} ${picture.width} ${picture.height}`);
}

// The column of the events is wider if their numbers are long.
function makeRoomForNumbers(length) {
  const digits = Math.max(2, String(length).length);
  if (digits === picture.digits) return;
  picture.digits = digits;
  $('stage').style.setProperty('--digits', digits);
  measure();
  // The new picture may need a scroll bar that the stage does not have yet.
  later('room', 0, resized);
}

// Stores the width that is available for a picture, and the height that is in sight.
function measure() {
  picture.room = $('stage').clientWidth - $('rows').offsetWidth;
  picture.sight = $('stage').clientHeight;
}

// Fits the picture to the available width, within bounds, and aligns the names and cards with its lanes.
function fitPicture(servers) {
  picture.zoom = Math.min(1, Math.max(SMALLEST, picture.room / picture.width));
  picture.svg.setAttribute('width', picture.width * picture.zoom);
  picture.svg.setAttribute('height', picture.height * picture.zoom);
  const style = $('board').style;
  style.setProperty('--zoom', picture.zoom);
  style.setProperty('--lead', `${(FIRST_LANE - picture.left - APART / 2) * picture.zoom}px`);
  style.setProperty('--apart', `${APART * picture.zoom}px`);
  style.setProperty('--servers', servers);
}

function fillRows(schedule) {
  $('rows').style.height = `${picture.height * picture.zoom}px`;
  $('rows').replaceChildren(...picture.rows.flatMap(({ event, top, height, hidden }) => {
    const text = schedule.events[event], style = `top:${top * picture.zoom}px;height:${height * picture.zoom}px`;
    const row = el('li', { style, 'data-e': event, title: text }, el('b', {}, String(event)), ` ${text}`);
    const gap = `top:${(top - GAP) * picture.zoom}px;height:${GAP * picture.zoom}px`;
    return hidden > 0 ? [el('li', { class: 'gap', style: gap }, `${hidden} hidden`), row] : [row];
  }));
}

function fillHeads(servers) {
  const heads = Array.from({ length: servers }, (_, server) => {
    const owned = servers === 1 ? 'owns all' : `owns ${server}, ${server + servers}, ..`;
    return el('div', { class: `lane-head owner${server}` }, el('span', {}, el('b', {}, `server ${server}`), owned));
  });
  becomeLike($('heads'), el('div', {}, el('span', { class: 'corner' }, 'event'), ...heads));
}

// Makes everything pale that has not happened yet, and marks the last event.
function markParts(box, cursor) {
  for (const part of box.querySelectorAll('[data-e]')) part.classList.toggle('later', +part.dataset.e >= cursor);
  for (const part of box.querySelectorAll('.here')) part.classList.remove('here');
  for (const part of box.querySelectorAll(`[data-e="${cursor - 1}"]`)) part.classList.add('here');
}

// Marks the events before the cursor, and the last one of them.
function markCursor(cursor) {
  const here = picture.rows.find(({ event }) => event === cursor - 1);
  markParts($('picture'), cursor);
  $('rows').querySelector('[aria-current]')?.removeAttribute('aria-current');
  $('rows').querySelector('.here')?.setAttribute('aria-current', 'step');
  const band = $('drawing').querySelector('#band');
  band?.setAttribute('y', TOP + (here?.top ?? 0));
  band?.setAttribute('height', here?.height ?? 0);
  showNear(here);
  showRow(here);
  if (cursor > 0 && picture.svg) showLane(cursor - 1);
}

// Scrolls the stage so that the lane and the labels of an event are in sight. If there is no room for both labels, the
// left one is in sight, because otherwise it would be behind the list of the events. An event at a server that the
// cluster does not have is left of all lanes.
function showLane(place) {
  const stage = $('stage'), { svg, left, zoom, room } = picture;
  const label = svg.querySelector(`.event[data-e="${place}"] .cause`);
  if (!label) return;
  const lane = (laneOf(label) - left) * zoom;
  const [before, after] = reachesOf(svg, place).map(reach => Math.max(reach, APART / 2) * zoom);
  const last = Math.max(lane - before, lane + BESIDE.cause - room), first = Math.min(lane + after - room, last);
  const isSeen = first <= stage.scrollLeft && stage.scrollLeft <= last;
  if (!isSeen) stage.scrollLeft = Math.min(last, Math.max(first, lane - room / 2));
}

// Scrolls the stage so that a row is between the servers' names and the dock. A hint is above the names. A row that is
// not in sight comes to the middle, because then most of the next steps need not scroll.
function showRow(row) {
  const stage = $('stage'), isSticky = getComputedStyle($('dock')).position === 'sticky';
  if (!isSticky) return;
  if (!row) { stage.scrollTop = 0; return; }
  const origin = $('picture').offsetTop, above = $('heads').offsetHeight, below = $('dock').offsetHeight;
  const top = origin + row.top * picture.zoom, bottom = top + row.height * picture.zoom;
  const seen = stage.clientHeight - below - $('hint').offsetHeight;
  picture.sight = seen - above;
  const highest = top - above - 40, lowest = bottom - seen + 60;
  // A row that is too high for these margins has smaller ones.
  if (lowest > highest) stage.scrollTop = Math.max(highest, Math.min(bottom - seen, top - above));
  else if (stage.scrollTop > highest || stage.scrollTop < lowest) stage.scrollTop = (highest + lowest) / 2;
}

const NARROW = matchMedia('(max-width: 900px)');

// In a narrow window, the page scrolls too. Scrolls it down if the parts above the picture push the row of the last
// event below the window. A reader who has scrolled further down stays there.
function followRow() {
  const row = $('rows').querySelector('.here');
  if (NARROW.matches && row) {
    const below = row.getBoundingClientRect().bottom - $('steps').getBoundingClientRect().top;
    const above = $('stage').getBoundingClientRect().top - $('bad-link').offsetHeight;
    if (below > 0 && above > 0) scrollBy(0, Math.min(below, above));
  }
  placeMessage();
}

// The event of the row at a point of the picture, or null.
function eventAt(y) {
  const inside = (y - $('drawing').getBoundingClientRect().top) / picture.zoom;
  return picture.rows.find(({ top, height }) => inside >= top && inside < top + height)?.event ?? null;
}

// Copies the explanation of marks and lines, which is at the foot of every picture, to the help.
function fillKey(core) {
  const { printed } = core.call(['draw'], asScenario(emptyOf({ servers: 1 })));
  const box = el('div');
  box.innerHTML = printed;
  const svg = box.querySelector('svg'), key = box.querySelector('.key');
  const isKept = part => part === key || ['style', 'defs'].includes(part.tagName);
  for (const part of [...svg.children]) if (!isKept(part)) part.remove();
  key.querySelector('text').remove();
  key.setAttribute('transform', 'translate(4 12)');
  svg.setAttribute('viewBox', '0 0 850 118');
  svg.setAttribute('width', '100%');
  svg.removeAttribute('height');
  $('key').replaceChildren(svg);
}
