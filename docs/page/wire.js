'use strict';
// The actions of buttons and keys.

const OWN = {
  out: takeOut,
  cut: () => become(prefixOf(page.schedule, page.cursor), page.cursor),
  ask: server => { dock.ask = +server < 0 ? null : +server; refillDock(); },
  again: server => { toggle(dock.again, +server); refillDock(); },
  whole: list => { toggle(dock.whole, list); refillDock(); },
};

function refillDock() {
  fillDock(page.now);
  greyButtons();
}

function toggle(set, item) {
  if (!set.delete(item)) set.add(item);
}

function press(button) {
  const [name, argument] = button.dataset.do.split(' ');
  if (button.getAttribute('aria-disabled') === 'true') say(`The proved code would refuse this: ${button.title}`);
  else if (OWN[name]) OWN[name](argument);
  else add(button.dataset.do);
}

// Submits a command, if its text is a command and the program does not refuse the event.
function submit(form) {
  const event = `submit ${form.dataset.server} ${form.querySelector('input').value}`;
  const answer = core.call(['check'], asScenario(withEvent(emptyOf({ servers: 1 }), event)));
  if (answer.status !== 0) {
    say(wordsOf(answer.said).replace(/^event 0 "[^"]*": /, ''));
    return;
  }
  const refusal = refusalOf(event);
  if (refusal) say(`The proved code would refuse this: ${refusal}, because ${REFUSALS[refusal]}.`);
  else add(event);
}

function save(name, type, text) {
  const link = el('a', { href: URL.createObjectURL(new Blob([text], { type })), download: name });
  link.click();
  setTimeout(() => URL.revokeObjectURL(link.href), 1000);
}

function savePicture() {
  const answer = core.call(['draw'], asScenario(page.schedule));
  if (answer.status === 0) save('schedule.svg', 'image/svg+xml', answer.printed);
  else say(wordsOf(answer.said));
}

function saveSchedule() {
  save('schedule.json', 'application/json', asFile(page.schedule));
  address.saved = page.schedule;
}

function changeTheme() {
  const root = document.documentElement, isDark = matchMedia('(prefers-color-scheme: dark)').matches;
  const shown = root.className || (isDark ? 'dark' : 'light');
  root.className = shown === 'dark' ? 'light' : 'dark';
}

// Hides the panel next to the picture, or shows it again.
function showSide() {
  const isHidden = document.body.classList.toggle('alone');
  $('side').setAttribute('aria-pressed', isHidden);
}

// The button that closes the help has the focus. It is at the end, but the help is read from its start.
function showHelp() {
  $('keys').showModal();
  $('keys').scrollTop = 0;
}

// Adds an input for a field that all servers share. If the program accepts a new number, the events stay.
function wireCommon(name) {
  const input = el('input', { id: name, type: 'number', min: 0 });
  $('common').append(el('label', { title: DATA.members[name].meaning }, `${name} `, input));
  input.onchange = () => {
    const empty = emptyOf({ ...page.schedule, [name]: Number(input.value) });
    const answer = core.call(['check'], asScenario(empty)), { cursor } = page;
    if (answer.status !== 0) say(`This is not a schedule: ${wordsOf(answer.said)}`);
    else if (change(empty, 0, `Now ${name} is ${input.value}.`)) go(cursor);
    showBar();
  };
}

// After a choice, the keys belong to the schedule. In a list, they would choose something else.
const focusPicture = () => $('picture').focus({ preventScroll: true });

function wireBar() {
  for (const name of Object.keys(DATA.examples)) $('example').add(new Option(name.replaceAll('_', ' '), name));
  $('example').add(new Option('(none)', ''), 0);
  for (let servers = 1; servers <= 7; servers += 1) $('servers').add(new Option(servers, servers));
  $('example').onchange = () => {
    const example = DATA.examples[$('example').value];
    showStep(0);
    become(example ?? emptyOf({ servers: page.schedule.servers }), example ? example.events.length : 0);
    focusPicture();
  };
  $('servers').onchange = () => {
    const wasEmpty = page.schedule.events.length === 0;
    become(emptyOf({ ...page.schedule, servers: +$('servers').value }), 0);
    if (!wasEmpty) say('This is a new schedule. Undo restores the former one.');
    focusPicture();
  };
  COMMON.forEach(wireCommon);
  const actions = {
    undo: () => undo(page.past, page.future), redo: () => undo(page.future, page.past),
    random: () => addAtRandom(1), random20: () => addAtRandom(20),
    first: () => go(0), back: () => step(-1), next: () => step(1), last: () => go(Infinity),
    link: shareLink, json: saveSchedule, svg: savePicture, discard: discardDraft,
    copy: () => copy($('shared').value), 'close-share': () => $('share').close(),
    theme: changeTheme, side: showSide, help: showHelp, 'close-keys': () => $('keys').close(),
  };
  for (const [id, action] of Object.entries(actions)) $(id).onclick = action;
  $('slider').oninput = () => go(+$('slider').value);
  $('hint').querySelector('button').onclick = hideHint;
  $('toast').onclick = ({ target }) => {
    if (!target.closest('[data-undo]')) return;
    hideMessage();
    undo(page.past, page.future);
    endDoubleClick();
  };
}

// The button that was clicked is gone, so the second click of a double click would reach what was behind it.
function endDoubleClick() {
  const stop = event => {
    if (event.detail > 1) { event.preventDefault(); event.stopPropagation(); }
    else removeEventListener('click', stop, true);
  };
  addEventListener('click', stop, true);
}

function wireStage() {
  $('dock').onclick = ({ target }) => {
    const button = target.closest('[data-do]');
    if (button) press(button);
  };
  $('dock').onsubmit = event => { event.preventDefault(); submit(event.target); };
  new ResizeObserver(resized).observe($('stage'));
}

function drawAgain() {
  picture.drawn = null;
  drawPicture(core, page);
}

function resized() {
  makeRoomForHint();
  if (!$('bad-link').hidden) makeRoomForBadLink();
  const { room } = picture;
  measure();
  if (!picture.svg) return;
  if (hasRoomForSenders(room) !== hasRoomForSenders(picture.room)) drawAgain();
  fitPicture(page.schedule.servers);
  fillRows(page.schedule);
  markCursor(page.cursor);
  sizeMarks();
  showPart();
  // The height of a phone's window changes while the reader scrolls. Only a change of the width may move the page.
  if (picture.room !== room) followRow();
}

// Makes the text of the editor the schedule of the page, if the program accepts it. Otherwise it stays a draft.
function takeSource() {
  const schedule = readEditor(core);
  $('draft').hidden = schedule !== null;
  if (!schedule) return;
  draft.isOpen = false;
  page.edited = schedule;
  become(schedule, schedule.events.length);
}

function wireTabs() {
  for (const tab of TABS) $(`tab-${tab}`).onclick = () => setTab(tab);
  document.querySelector('[role=tablist]').onkeydown = event => {
    const by = { ArrowLeft: -1, ArrowRight: 1 }[event.key];
    if (!by) return;
    event.stopPropagation();
    setTab(TABS[(TABS.indexOf(page.tab) + by + TABS.length) % TABS.length]);
    $(`tab-${page.tab}`).focus();
  };
  $('lesson').onclick = ({ target }) => {
    const button = target.closest('[data-step], [data-replay]');
    if (button) button.dataset.step ? startStep(+button.dataset.step) : replayStep();
  };
  $('source').oninput = () => {
    draft.isOpen = true;
    later('check', 200, takeSource);
  };
  $('worker').onsubmit = event => {
    event.preventDefault();
    const schedule = drawByWorker(core, page.schedule);
    if (schedule) become(schedule, schedule.events.length);
  };
  wireLog();
  for (const area of [$('source'), $('log')]) {
    area.onscroll = () => { area.previousElementSibling.scrollTop = area.scrollTop; };
  }
}

// ---- keys

const PLAIN = {
  ArrowLeft: () => step(-1), ArrowRight: () => step(1), ArrowUp: () => step(-1), ArrowDown: () => step(1),
  PageUp: () => step(-10), PageDown: () => step(10), Home: () => go(0), End: () => go(Infinity),
  Delete: takeOut, Backspace: takeOut, r: () => addAtRandom(1), R: () => addAtRandom(20), p: showSide,
  ' ': togglePlay, g: () => $('goto').select(), '?': showHelp,
  d: () => pressFocused('.message'), l: () => pressFocused('.lose'), e: explainFocused,
};

// In a text that has the focus, these keys scroll.
const SCROLLING = ['ArrowUp', 'ArrowDown', 'PageUp', 'PageDown', 'Home', 'End'];

// Delivers or loses the message that has the focus.
function pressFocused(kind) {
  document.activeElement?.closest?.('[data-m]')?.querySelector(kind)?.click();
}

function keyed(event) {
  if ($('keys').open || $('share').open || event.altKey) return;
  const { target, key } = event, isField = target.tagName === 'INPUT' && target.type !== 'range';
  const isWriting = isField || ['TEXTAREA', 'SELECT'].includes(target.tagName);
  if (key === 'Escape' && about.isPinned) { closeCard(); focusPicture(); }
  if (key === 'Escape' && dock.ask !== null) { OWN.ask('-1'); return; }
  if (isWriting) return;
  if (event.ctrlKey || event.metaKey) {
    const back = () => undo(page.past, page.future), again = () => undo(page.future, page.past);
    const action = { z: back, Z: again, y: again }[key];
    if (action) { event.preventDefault(); action(); }
    return;
  }
  if (SCROLLING.includes(key) && target.closest('pre')) return;
  if (key === ' ' && target.closest('button, summary, [type=checkbox]')) return;
  if (/^[0-6]$/.test(key)) $('dock').querySelector(`section[data-server="${key}"] [data-do]`)?.focus();
  const action = PLAIN[key];
  if (action && !(target.id === 'slider' && key.startsWith('Arrow'))) { event.preventDefault(); action(); }
}

function wire() {
  wireBar();
  wireStage();
  wireTabs();
  wireCards();
  wireOverview();
  wirePlay();
  wireFiles();
  wireComparison();
  wireTimeline();
  wireWays();
  wireBadLink();
  fillKey(core);
  measure();
  addEventListener('keydown', keyed);
  addEventListener('hashchange', () => {
    if (location.hash !== address.written) openAddress(false);
  });
  addEventListener('beforeunload', event => { if (isUnsaved()) event.preventDefault(); });
}

main();
