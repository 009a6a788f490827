'use strict';
// The bar above the picture of a long schedule: the filter, a field to go to an event, and a strip that shows the whole
// schedule. The strip has a lane for each server, and time runs to the right.

// A schedule with fewer events needs no strip.
const SHORTEST = 30;
// In pixels: the height of a lane of the strip, and the space between two lanes.
const STRIPE = 11, SPACE = 2;
// The lower and upper end of the mark of a result, as parts of the lane's height.
const MARKS = {
  executed: [1, 0], learned: [1, 0.35], 'no-op': [1, 0.35], submit: [0.55, 0], retry: [0.55, 0], suspect: [1, 0],
  lose: [1, 0.6], heard: [1, 0.7], vain: [1, 0.8],
};

// The strip has at most this many marks of one kind in a lane, because more would lie on top of each other.
const FINEST = 2_000;

const strip = { trace: null, key: '', count: 0, hasTracks: false };

const stripeTop = server => SPACE + server * (STRIPE + SPACE);

// ---- the marks of the strip

function classOf({ result, about, isVain }, servers) {
  const kind = isVain ? 'vain' : result;
  return about.length === 0 || kind === 'no-op' || isVain ? kind : `${kind} ${ownerOf(about[0], servers)}`;
}

// One path for each kind of mark. Hidden events get paths of their own.
function pathsOf(trace, shown) {
  const paths = new Map(), isShown = new Set(shown), coarseness = Math.max(1, trace.events.length / FINEST);
  outcomesOf(trace).forEach((outcome, event) => {
    // An event at a server that does not exist is refused, and has no lane.
    if (outcome.server >= trace.servers) return;
    const kind = classOf(outcome, trace.servers), name = `mark ${kind}${isShown.has(event) ? '' : ' off'}`;
    if (!paths.has(name)) paths.set(name, { d: [], last: [] });
    const { d, last } = paths.get(name), place = Math.floor(event / coarseness);
    if (last[outcome.server] === place) return;
    last[outcome.server] = place;
    const [low, high] = MARKS[kind.split(' ')[0]], top = stripeTop(outcome.server);
    d.push(`M${event + 0.5} ${top + low * STRIPE}V${top + high * STRIPE}`);
  });
  return [...paths].map(([name, { d }]) => svgEl('path', { class: name, d: d.join('') }));
}

function linesOfSuspicions(trace, height) {
  const d = outcomesOf(trace).map(({ act, isVain }, event) =>
    (act === 'suspect' && !isVain ? `M${event + 0.5} 0V${height}` : '')).join('');
  return svgEl('path', { class: 'suspicions', d });
}

function drawStrip(trace) {
  const count = trace.events.length, shown = passing({ trace }), lowest = stripeTop(trace.servers);
  const tracks = strip.hasTracks ? drawTracks(trace, lowest) : { parts: [], names: [], height: 0 };
  const height = lowest + tracks.height;
  const lanes = Array.from({ length: trace.servers }, (_, server) =>
    svgEl('rect', { class: 'stripe', x: 0, y: stripeTop(server), width: count, height: STRIPE }));
  const window = svgEl('rect', { id: 'strip-part', y: 0, height });
  const cursor = svgEl('path', { id: 'strip-cursor', d: `M0 0V${height}` });
  $('strip').replaceChildren(svgEl('svg', { viewBox: `0 0 ${count} ${height}`, preserveAspectRatio: 'none' },
    ...lanes, window, linesOfSuspicions(trace, lowest), ...tracks.parts, ...pathsOf(trace, shown), cursor));
  $('strip').style.height = `${height}px`;
  $('strip').setAttribute('aria-label', stripInWords(trace));
  nameLanes(trace.servers, tracks.names);
  for (const option of $('only-server').options) option.hidden = option.value !== '' && +option.value >= trace.servers;
  Object.assign(strip, { trace, key: filter.found.key, count });
  sizeMarks();
}

function nameLanes(servers, instances) {
  const lanes = Array.from({ length: servers }, (_, server) => el('li', { class: `owner${server}` }, String(server)));
  const tracks = instances.map(instance => el('li', { class: `track ${ownerOf(instance, servers)}` }, `i${instance}`));
  $('strip-servers').replaceChildren(...lanes, ...tracks);
}

// Few events have wide marks.
function sizeMarks() {
  const each = $('strip').clientWidth / Math.max(1, strip.count);
  $('strip').style.setProperty('--mark', `${Math.max(1, Math.min(6, 0.75 * each))}px`);
}

function stripInWords(trace) {
  const all = outcomesOf(trace), number = test => all.filter(test).length;
  const [commands, done] = [number(({ act }) => act === 'submit'), number(({ result }) => result === 'executed')];
  const [suspicions, vain] = [number(({ act }) => act === 'suspect'), number(({ isVain }) => isVain)];
  const counts = [[all.length, 'event'], [commands, 'command'], [done, 'execution'], [suspicions, 'suspicion']];
  return `the whole schedule: ${counts.map(pair => count(...pair)).join(', ')}, ${vain} without effect`;
}

// ---- the bar

// Shows the bar for a long schedule. A new strip is drawn after the picture.
function showOverview({ whole: { trace }, cursor }) {
  const isShort = trace.events.length < SHORTEST && !isFiltered(), list = passing({ trace });
  $('view').hidden = isShort;
  if (isShort) { strip.trace = null; return; }
  $('passing').textContent = isFiltered() ? `${list.length} of ${trace.events.length}` : '';
  $('clear').hidden = !isFiltered();
  if (document.activeElement !== $('goto')) $('goto').value = Math.max(0, cursor - 1);
  if (strip.trace === trace && strip.key === filter.found.key) showInStrip();
  else later('strip', strip.trace === null ? 0 : 100, showStrip);
}

function showStrip() {
  const { trace } = page.whole;
  if ($('view').hidden) return;
  if (strip.trace !== trace || strip.key !== filter.found.key) drawStrip(trace);
  showInStrip();
  followRow();
}

// Shows the cursor in the strip, and the events that the picture shows.
function showInStrip() {
  $('strip-cursor')?.setAttribute('transform', `translate(${page.cursor} 0)`);
  showPart();
}

function showPart() {
  const part = $('strip-part');
  if (!part) return;
  const seen = rowsInSight();
  part.setAttribute('x', seen.length ? seen[0].event : 0);
  part.setAttribute('width', seen.length ? seen.at(-1).event + 1 - seen[0].event : 0);
}

function rowsInSight() {
  const [stage, drawing, dock] = ['stage', 'drawing', 'dock'].map(id => $(id).getBoundingClientRect());
  const from = stage.top + $('heads').offsetHeight - drawing.top, to = Math.min(stage.bottom, dock.top) - drawing.top;
  const middle = row => (row.top + row.height / 2) * picture.zoom;
  return picture.rows.filter(row => middle(row) > from && middle(row) < to);
}

// The event at a point of the strip.
function eventInStrip({ clientX }) {
  const { left, width } = $('strip').getBoundingClientRect();
  return Math.max(0, Math.min(strip.count - 1, Math.floor((clientX - left) / width * strip.count)));
}

function changeFilter() {
  const [server, instance] = ['only-server', 'only-instance'].map(id => ($(id).value === '' ? null : +$(id).value));
  Object.assign(filter, { server, instance, isBrief: $('brief').checked });
  show();
}

function clearFilter() {
  Object.assign(filter, { server: null, instance: null, isBrief: false });
  for (const id of ['only-server', 'only-instance']) $(id).value = '';
  $('brief').checked = false;
  show();
  focusPicture();
}

function goToEvent() {
  go(Math.max(0, Math.floor(+$('goto').value || 0)) + 1);
  focusPicture();
}

function wireOverview() {
  $('only-server').add(new Option('all', ''));
  for (let server = 0; server < 7; server += 1) $('only-server').add(new Option(server, server));
  for (const id of ['only-server', 'only-instance', 'brief']) $(id).onchange = changeFilter;
  $('clear').onclick = clearFilter;
  $('goto').onchange = goToEvent;
  $('tracks').onclick = () => {
    strip.hasTracks = !strip.hasTracks;
    $('tracks').setAttribute('aria-pressed', strip.hasTracks);
    drawStrip(page.whole.trace);
    showInStrip();
    followRow();
  };
  const scrub = event => { if (event.buttons === 1) go(eventInStrip(event) + 1); };
  $('strip').onpointerdown = event => { $('strip').setPointerCapture(event.pointerId); scrub(event); };
  $('strip').onpointermove = event => {
    scrub(event);
    if (event.buttons === 0) openCard({ event: eventInStrip(event) }, event.clientX, event.clientY + 10);
  };
  $('strip').onpointerleave = () => { if (!about.isPinned) closeCard(); };
  $('stage').addEventListener('scroll', () => later('part', 50, showPart));
}
