'use strict';
// The actions of buttons, pointers and keys in the timeline of a log.

// Scrolls the timeline to a line of the log, and to the lane of its mark.
function goToLine(number) {
  const { timeline } = board, row = timeline.rowOf(number), stage = $('log-stage');
  if (row < 0) return;
  stage.scrollTop = row * ROW + HEADS - stage.clientHeight / 2;
  const [x] = pointOf(timeline, row) ?? [0], column = $('log-rows').offsetWidth, wide = stage.clientWidth - column;
  if (x + board.bar > stage.scrollLeft + wide || x - board.bar < stage.scrollLeft) stage.scrollLeft = x - wide / 2;
  showRows();
}

// Goes to the next quoted line, or to the first one after the last.
function goToNextQuoted() {
  const { quoted, quotedRows } = board.timeline, { scrollTop, clientHeight } = $('log-stage');
  const middle = scrollTop + clientHeight / 2 - HEADS;
  const next = quotedRows.findIndex(row => row * ROW > middle + ROW / 2);
  if (quoted.length > 0) goToLine(board.timeline.rows[quotedRows[Math.max(0, next)]].number);
}

// Lights the marks of a command, and shows what the log says of it.
function lightCommand(id) {
  if (id === board.lit || (id === null && board.lit === null)) return;
  board.lit = id;
  for (const part of $('log-lanes').querySelectorAll('[data-id]')) part.classList.toggle('lit', part.dataset.id === id);
  showCard();
}

function showCard() {
  const command = board.timeline.commands.get(board.lit);
  $('command-card').textContent = command ? storyOf(board.timeline, command)
    : 'A bar is a command, from its submission to its first reply. A bar with an open end has no reply. A box is an'
      + ' execution. Point at a bar for more.';
}

// While the timeline is in sight, keys scroll it. They do not step the schedule, which is out of sight.
const SCROLL_KEYS = {
  ArrowUp: () => -ROW, ArrowDown: () => ROW, PageUp: page => -page, PageDown: page => page,
  Home: () => -Infinity, End: () => Infinity,
};

// Parts that use these keys themselves.
const OWN_KEYS = 'textarea, select, input, [role=tablist], pre';

function keyedInTimeline(event) {
  const { key, target } = event, stage = $('log-stage'), isInSight = document.body.classList.contains('logs');
  if (!isInSight || document.querySelector('dialog[open]') || ['?', 'p'].includes(key)) return;
  event.stopPropagation();
  if (event.ctrlKey || event.metaKey || event.altKey || target.closest(OWN_KEYS)) return;
  if (key === 'n') goToNextQuoted();
  else if (SCROLL_KEYS[key]) scrollStage(stage, SCROLL_KEYS[key](stage.clientHeight - HEADS - ROW));
  else if (['ArrowLeft', 'ArrowRight'].includes(key)) stage.scrollLeft += key === 'ArrowLeft' ? -60 : 60;
  else return;
  event.preventDefault();
}

function scrollStage(stage, by) {
  stage.scrollTop = Math.max(0, Math.min(stage.scrollHeight, stage.scrollTop + by));
}

function wireTimeline() {
  const lanes = $('log-lanes'), idOf = ({ target }) => target.closest('[data-id]')?.dataset.id ?? null;
  $('log-stage').onscroll = () => showRows();
  lanes.onmouseover = event => lightCommand(idOf(event));
  lanes.addEventListener('focusin', event => lightCommand(idOf(event)));
  lanes.onclick = event => { if (idOf(event)) lightCommand(idOf(event)); };
  $('quoted-lines').onclick = ({ target }) => {
    const button = target.closest('[data-line]');
    if (button) goToLine(+button.dataset.line);
  };
  $('overview').onpointerdown = scrollByOverview;
  $('overview').onpointermove = scrollByOverview;
  document.addEventListener('keydown', keyedInTimeline);
  new ResizeObserver(() => {
    if (!board.timeline) return;
    showLogOverview();
    arrangeLanes(board.timeline.lanes);
    fillLaneHeads();
    showRows(true);
    drawOverview();
  }).observe($('log-stage'));
}

// Shows the timeline in place of the picture if the tab of the log is chosen. Out of sight, it loses its place.
function showView(tab) {
  document.body.classList.toggle('logs', tab === 'judge');
  if (tab !== 'judge') board.place = null;
}
