'use strict';
// The page contains a schedule and a cursor in it. It shows the result of the events before the cursor.

const $ = id => document.getElementById(id);
const DATA = JSON.parse($('data').textContent);
// The fields that all servers share, such as beta.
const COMMON = Object.keys(DATA.members).filter(name => name !== 'servers');
for (const [name, scenario] of Object.entries(DATA.examples)) DATA.examples[name] = scheduleOf(scenario);
for (const step of DATA.lessons) step.schedule = scheduleOf(step.schedule);
const TABS = ['lesson', 'editor', 'compare', 'judge', 'texts'];
const UNDONE = 500;

let core;
const page = {
  schedule: emptyOf({ servers: 3 }), cursor: 0, tab: 'lesson', past: [], future: [],
  now: null, whole: null, edited: null, dice: diceOf(7),
};

// Says something for a while, with a button to undo the last change if `isUndoable`.
function say(text, isUndoable = false) {
  if ($('toast').contains(document.activeElement)) focusPicture();
  $('toast').replaceChildren(text, ...isUndoable ? [' ', el('button', { 'data-undo': true }, 'undo')] : []);
  $('toast').classList.add('seen');
  placeMessage();
  clearTimeout(say.timer);
  say.timer = setTimeout(hideMessage, 5000);
}

// Hides the message. Its button is removed, because a key must not reach a button that nobody sees.
function hideMessage() {
  const button = $('toast').querySelector('button');
  $('toast').classList.remove('seen');
  if (document.activeElement === button) focusPicture();
  if (button) button.remove();
}

// In a low window, the message would be in front of the row of the last event. Then it is at the top.
function placeMessage() {
  const toast = $('toast'), row = $('rows').querySelector('.here');
  toast.classList.remove('above');
  if (!row || !toast.classList.contains('seen')) return;
  const message = toast.getBoundingClientRect(), { top, bottom } = row.getBoundingClientRect();
  toast.classList.toggle('above', message.top < bottom && top < message.bottom);
}

function later(name, wait, action) {
  clearTimeout(later[name]);
  later[name] = setTimeout(action, wait);
}

// In milliseconds. Long work is done in pieces of this length, so that the page stays responsive.
const PIECE = 12;

// Runs a generator to its end, and then calls `whenDone`. It gives up former work of the same name.
function inPieces(name, work, isLong, whenDone) {
  const goOn = () => {
    const until = performance.now() + PIECE;
    do {
      if (work.next().done) { whenDone(); return; }
    } while (!isLong || performance.now() < until);
    later(name, 0, goOn);
  };
  clearTimeout(later[name]);
  goOn();
}

// ---- all changes of the schedule and the cursor

// A click needs the trace of the same schedule several times, so the latest traces are kept.
const TRACES_KEPT = 4;
const traces = new Map();
// The traces of a long schedule often begin with the same lines, so traces of some beginnings are kept too. There are
// at most this many in one trace, and at least this many letters between two of them.
const BEGINNINGS = 16, LEAST_LETTERS = 8_000;
const beginnings = [];

function traceOf(schedule) {
  const scenario = asScenario(schedule);
  if (traces.has(scenario)) return traces.get(scenario);
  const answer = core.call(['trace'], scenario);
  if (answer.status !== 0) {
    say(wordsOf(answer.said));
    return null;
  }
  const text = answer.printed, made = { text, trace: readTrace(text) };
  traces.set(scenario, made);
  if (traces.size > TRACES_KEPT) traces.delete(traces.keys().next().value);
  return made;
}

// Reads a trace from the end of a former one on, and keeps traces of the beginnings in between.
function readTrace(text) {
  const size = Math.max(LEAST_LETTERS, text.length / BEGINNINGS);
  let former = formerTrace(text), read = former?.lines.length ?? 0;
  while (lengthOfEvents(text) - read > size) {
    const end = text.lastIndexOf('\nevent ', read + size) + 1;
    if (end <= read) break;
    former = new Trace(text.slice(0, end), former);
    read = end;
    beginnings.push(former);
    if (beginnings.length > 2 * BEGINNINGS) beginnings.shift();
  }
  return new Trace(text, former);
}

// The longest trace with which this text begins.
function formerTrace(text) {
  const longestFirst = [...[...traces.values()].map(({ trace }) => trace), ...beginnings]
    .sort((one, other) => other.lines.length - one.lines.length);
  return longestFirst.find(({ lines }) => beginsWith(text, lines));
}

function become(schedule, cursor, isKept = true) {
  const whole = traceOf(schedule);
  if (!whole) return false;
  // The button of a message undoes only the change that the message is about.
  if ($('toast').querySelector('[data-undo]')) hideMessage();
  if (isKept) {
    page.past.push({ schedule: page.schedule, cursor: page.cursor });
    if (page.past.length > UNDONE) page.past.shift();
    page.future = [];
    freeAddress();
  }
  Object.assign(page, { schedule, whole });
  dock.ask = null;
  go(cursor);
  return true;
}

function go(cursor) {
  stopPlay();
  closeCard();
  hideHint();
  hideWays();
  page.cursor = Math.max(0, Math.min(page.schedule.events.length, cursor));
  show();
}

function undo(from, to) {
  const state = from.pop();
  if (!state) return;
  to.push({ schedule: page.schedule, cursor: page.cursor });
  become(state.schedule, state.cursor, false);
}

// Inserts an event at the cursor. If the next event of the schedule is the same one, it only moves the cursor.
function add(event) {
  const { schedule, cursor } = page;
  if (schedule.events[cursor] === event) { go(cursor + 1); return; }
  if (!insert([event])) return;
  const { refusal } = page.now.trace.events.at(-1);
  if (refusal) say(`Refused, because ${REFUSALS[refusal]}.`);
}

// Inserts events at the cursor, as one change.
function insert(events) {
  const { schedule, cursor } = page;
  return change(withEvents(prefixOf(schedule, cursor), events), cursor, 'Inserted at the cursor.');
}

function takeOut() {
  const { schedule, cursor } = page;
  if (cursor > 0) change(prefixOf(schedule, cursor - 1), cursor, `Event ${cursor - 1} is taken out.`);
}

// Replaces the events before the place `from` by those of `prefix`. The later events keep their meaning.
function change(prefix, from, what) {
  const made = rebound(page.schedule, from, prefix, traceOf);
  if (!made || !become(made.schedule, prefix.events.length)) return false;
  const { gone, altered, refused } = made, some = gone.slice(0, 4).join(', ') + (gone.length > 4 ? ' ..' : '');
  const parts = [what];
  if (gone.length) parts.push(`Nobody sends the messages of these events now, so they are gone: ${some}.`);
  const have = altered === 1 ? 'has' : 'have';
  if (altered) parts.push(`${count(altered, 'later event')} ${have} a message that says something else now.`);
  if (refused) parts.push(`${count(refused, 'later event')} ${refused === 1 ? 'is' : 'are'} refused now.`);
  const isWhole = prefix.events.length === made.schedule.events.length;
  if (parts.length > 1) say(parts.join(' '), true);
  else if (!isWhole) say(`${what} The later events deliver the same messages as before.`);
  return true;
}

// Says why the program does not accept a schedule, or returns null if it does.
function mistakeIn(schedule) {
  const answer = core.call(['check'], asScenario(schedule));
  return answer.status === 0 ? null : wordsOf(answer.said);
}

// ---- random events

// One random step takes one event. The trace tells the events after which it was made, so more events are drawn from
// the same trace if it is long. In letters.
const READ_AT_ONCE = 500_000;

// The drawing goes on where it stopped, unless the schedule changed in the meantime.
function drawingFor(prefix) {
  const text = asScenario(prefix);
  if (page.drawing?.after !== text) page.drawing = { drawing: new Drawing(page.dice, isAccepted) };
  return page.drawing.drawing;
}

function isAccepted(schedule, event) {
  const { printed } = core.call(['replay'], scenarioAfter(schedule, event));
  return refusalIn(printed, schedule.events.length) === null;
}

// Draws random events and inserts them together.
function addAtRandom(number) {
  const first = page.cursor;
  let prefix = prefixOf(page.schedule, first), made = page.now;
  const drawing = drawingFor(prefix);
  while (made && prefix.events.length < first + number) {
    const size = Math.ceil(number * made.text.length / READ_AT_ONCE), end = first + number;
    drawing.look(prefix, made.trace);
    while (drawing.time < Math.min(end, prefix.events.length + size)) drawing.draw();
    prefix = drawing.schedule;
    made = traceOf(prefix);
  }
  if (!made || !change(prefix, first, 'Inserted at the cursor.')) return;
  page.drawing.after = asScenario(prefix);
  const done = prefix.events.length - first;
  if (done > 1) $('told').prepend(`${count(done, 'random event')} happened. The last one is `);
}

// ---- whether the proved code would refuse an event

// The events of buttons that may be refused.
function refusableEvents(servers) {
  const all = Array.from({ length: servers }, (_, server) => server);
  const suspicions = server => all.filter(other => other !== server).map(other => `suspect ${server} ${other}`);
  return all.flatMap(server => [`execute ${server}`, `retry ${server}`, ...suspicions(server)]);
}

// The refusal of the event after the events before the cursor, or null if it would be accepted.
function refusalOf(event) {
  const { now, cursor } = page;
  if (!(event in now.refusals)) {
    const { printed } = core.call(['replay'], scenarioAfter(now.prefix, event));
    now.refusals[event] = refusalIn(printed, cursor);
  }
  return now.refusals[event];
}

// In events. After more events, the page first shows the step, and asks which buttons are grey if no other step follows
// within some milliseconds.
const ASKED_AT_ONCE = 200, ASKED_AFTER = 80;

// Finds out which buttons are grey. It works for 12 ms at a time, so that the page stays responsive.
function greyButtons() {
  const until = performance.now() + 12;
  for (const button of $('dock').querySelectorAll('[data-asked]')) {
    if (performance.now() > until) { later('grey', 0, greyButtons); return; }
    const refusal = refusalOf(button.dataset.asked);
    button.setAttribute('aria-disabled', refusal !== null);
    button.title = refusal ? `${refusal}: ${REFUSALS[refusal]}` : button.dataset.asked;
    button.removeAttribute('data-asked');
  }
}

// ---- what the page shows

function show() {
  const { schedule, cursor, whole } = page, prefix = prefixOf(schedule, cursor);
  const made = cursor === schedule.events.length ? whole : traceOf(prefix);
  if (!made) return;
  const { text, trace } = made;
  page.now = { schedule, prefix, cursor, text, trace, refusals: {} };
  fillHeads(schedule.servers);
  fillDock(page.now);
  if (cursor > ASKED_AT_ONCE) later('grey', ASKED_AFTER, greyButtons); else greyButtons();
  drawPicture(core, page);
  markCursor(cursor);
  light(null);
  showOverview(page);
  followRow();
  showBar();
  showTab();
  lookForAnswer(trace);
  later('address', 300, keepAddress);
}

function showBar() {
  const { schedule, cursor, past, future } = page, length = schedule.events.length;
  $('slider').max = length;
  $('slider').value = cursor;
  $('where').textContent = `${cursor} of ${length}`;
  const event = page.now.trace.events.at(-1);
  $('told').textContent = cursor === 0 ? 'nothing has happened yet' : inSentence(event, cursor - 1);
  const atStart = cursor === 0, atEnd = cursor === length;
  const off = { undo: !past.length, redo: !future.length, first: atStart, back: atStart, next: atEnd, last: atEnd };
  for (const [id, isOff] of Object.entries(off)) $(id).disabled = isOff;
  for (const name of Object.keys(DATA.members)) $(name).value = schedule[name];
  const shown = asScenario(schedule);
  $('example').value = Object.keys(DATA.examples).find(name => asScenario(DATA.examples[name]) === shown) ?? '';
}

// The result of an event, for a screen reader.
function inSentence({ text, refusal, lines }, place) {
  const came = refusal ? `refused, ${REFUSALS[refusal]}` : lines.join('; ') || 'nothing more';
  return `event ${place}, ${text}: ${came}`;
}

function showTab() {
  const { tab, schedule, now } = page;
  // A step does not overwrite text that the user is editing, or a draft.
  $('draft').hidden = !draft.isOpen;
  if (tab === 'editor' && page.edited !== schedule && !draft.isOpen && document.activeElement !== $('source')) {
    page.edited = schedule;
    $('source').value = asFile(schedule);
    readEditor(core);
  }
  if (tab === 'compare') showComparison();
  if (tab === 'texts') {
    $('report').textContent = core.call(['replay'], asScenario(now.prefix)).printed;
    $('trace').textContent = now.text;
    const lines = now.text.split('\n'), last = lines.findLastIndex(line => line.startsWith('event '));
    $('trace').scrollTop = $('trace').scrollHeight * Math.max(0, last - 3) / lines.length;
  }
}

function setTab(tab) {
  page.tab = tab;
  showView(tab);
  for (const name of TABS) {
    $(name).hidden = name !== tab;
    $(`tab-${name}`).setAttribute('aria-selected', name === tab);
    $(`tab-${name}`).tabIndex = name === tab ? 0 : -1;
  }
  showTab();
  if (tab === 'judge') judgeLog(core);
}

// ---- hints

function showHint(text) {
  $('hint').firstElementChild.innerHTML = text;
  $('hint').hidden = false;
  makeRoomForHint();
}

function hideHint() {
  if ($('hint').hidden) return;
  $('hint').hidden = true;
  makeRoomForHint();
}

// The names of the servers stay in sight below the hint.
function makeRoomForHint() {
  $('stage').style.setProperty('--hint', `${$('hint').offsetHeight}px`);
}

// ---- start

function startStep(number) {
  showStep(number);
  const step = DATA.lessons[number - 1];
  if (step) become(step.schedule, 0);
  showTopOfPanel();
}

// A new step is read from its start. In a narrow window, the page scrolls instead of the panel.
function showTopOfPanel() {
  const side = document.querySelector('aside');
  side.scrollTop = 0;
  if (side.getBoundingClientRect().top < 0) side.scrollIntoView();
}

async function openAddress(isFirst) {
  const { hash } = location, link = await readLink(hash);
  showStep(link ? link.step : lesson.step);
  const mistake = link && mistakeIn(link.schedule);
  if (link && !mistake && become(link.schedule, link.cursor, !isFirst)) return;
  if (isFirst) {
    showStep(0);
    become(DATA.examples[DATA.first.example], DATA.first.cursor, false);
    if (hash.length <= 1) showHint(DATA.first.hint);
  }
  if (hash.length > 1) showBadLink(link, mistake);
}

// Waits until the browser has painted the page once, so that the first paint does not wait for the module. A hidden
// page is not painted.
const firstPaint = () => new Promise(resolve => {
  if (document.hidden) resolve(); else requestAnimationFrame(() => setTimeout(resolve));
});

async function main() {
  const begin = performance.now();
  try {
    await firstPaint();
    const module = await WebAssembly.compile(await unpacked($('module').textContent));
    core = new Core(module, why =>
      say(`The module stopped (${why}) and was started again. The schedule is not lost.`));
    core.start();
  } catch (error) {
    document.body.textContent = `This browser could not start the program: ${error}`;
    return;
  }
  wire();
  fillLessons();
  setTab('lesson');
  await openAddress(true);
  document.body.dataset.started = (performance.now() - begin).toFixed(1);
}
