'use strict';
// Plays the schedule: steps to the next shown event again and again, until the end.

// In events per second.
const SPEEDS = [0.5, 1, 2, 4, 8, 16];
const play = { timer: null, isOwnStep: false };

const isPlaying = () => play.timer !== null;

// Plays from the cursor, or from the start if the cursor is at the end.
function startPlay() {
  const { cursor, schedule } = page;
  if (schedule.events.length === 0) { say('There is no event to play yet.'); return; }
  if (cursor === schedule.events.length) go(0);
  play.timer = setTimeout(playOn, 1000 / +$('speed').value);
  showPlay();
}

function playOn() {
  play.isOwnStep = true;
  step(1);
  play.isOwnStep = false;
  const isOver = page.cursor === page.schedule.events.length;
  play.timer = isOver ? null : setTimeout(playOn, 1000 / +$('speed').value);
  if (isOver) showPlay();
}

// Any other step or change ends the play.
function stopPlay() {
  if (!isPlaying() || play.isOwnStep) return;
  clearTimeout(play.timer);
  play.timer = null;
  showPlay();
}

function showPlay() {
  $('play').textContent = isPlaying() ? 'pause' : 'play';
  $('play').setAttribute('aria-pressed', isPlaying());
}

const togglePlay = () => (isPlaying() ? stopPlay() : startPlay());

// Plays the schedule of the current step of the lesson from its start, with the events that the user added.
function replayStep() {
  go(0);
  startPlay();
}

function wirePlay() {
  for (const speed of SPEEDS) $('speed').add(new Option(`${speed}/s`, speed, speed === 2, speed === 2));
  $('play').onclick = togglePlay;
}
