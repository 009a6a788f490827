'use strict';
// Makes the labels of a picture readable. The program leaves too little space for long labels at the left, and assumes
// that each letter has the same width everywhere. So the page measures the labels. It gives the paper behind each label
// its size, and makes the picture wider.

// The sizes of the letters left and right of a mark, and the space between a label and the mark, as in the picture.
const LETTERS = { cause: 11, says: 12 }, BESIDE = { cause: 24, says: 26 };
// The space around a label, and the width of the line around its box.
const PADDING = 3, LINE = 2;
const SVG = 'http://www.w3.org/2000/svg';

function svgEl(tag, attributes = {}, ...children) {
  const made = document.createElementNS(SVG, tag);
  for (const [name, value] of Object.entries(attributes)) made.setAttribute(name, value);
  made.append(...children);
  return made;
}

// The width of a letter of size 1. The labels are monospaced, so one measurement is enough for all of them, and the
// browser need not lay out the picture for it.
function letterWidth() {
  if (!letterWidth.found) {
    const context = el('canvas').getContext('2d');
    context.font = '100px monospace';
    letterWidth.found = context.measureText('0'.repeat(10)).width / 1000;
  }
  return letterWidth.found;
}

const widthOfLabel = (label, kind) => label.textContent.length * LETTERS[kind] * letterWidth();

// In pixels. In a narrower picture, the event that sent a message would take the room of the result.
const ROOM_FOR_SENDERS = 400;

const hasRoomForSenders = room => room >= ROOM_FOR_SENDERS;

// Takes the events that sent the messages out of the labels if there is no room for them. The cards of the messages
// contain them too.
function shortenLabels(svg, room) {
  if (hasRoomForSenders(room)) return;
  for (const label of svg.querySelectorAll('.cause')) {
    label.textContent = label.textContent.replace(/ from event \d+$/, '');
  }
}

// Puts the arrows, which are below the labels and marks, into one group. Another group is for the arrows of the message
// that is marked. They are in front of the other arrows, but below the labels too.
function layArrowsBelow(svg) {
  const arrows = svg.querySelectorAll('.way');
  const groups = [svgEl('g', { class: 'ways' }, ...arrows), svgEl('g', { id: 'over' })];
  svg.querySelector('.event')?.before(...groups.slice(arrows.length > 0 ? 0 : 1));
}

// Gives each arrow a wide and invisible copy that is easy to point at, once the pointer is in the picture.
function widenArrows(svg) {
  const ways = svg?.querySelector('.ways');
  if (!ways || ways.nextSibling.classList.contains('hits')) return;
  const hits = [...ways.children].map(arrow =>
    svgEl('path', { class: 'hit', 'data-m': arrow.dataset.m, d: arrow.getAttribute('d') }));
  ways.after(svgEl('g', { class: 'hits' }, ...hits));
}

// Gives the paper behind each label that has no box of its own the size of the label.
function backLabels(svg) {
  for (const paper of svg.querySelectorAll('.backing')) {
    const label = paper.nextElementSibling;
    const kind = label.classList.contains('cause') ? 'cause' : 'says', width = widthOfLabel(label, kind);
    paper.setAttribute('x', kind === 'cause' ? -BESIDE.cause - width - PADDING : BESIDE.says - PADDING);
    paper.setAttribute('width', width + 2 * PADDING - 1);
  }
}

// Gives the box around each label the size of the label. The program does not know the width of the browser's letters.
function fitBoxes(svg) {
  for (const label of svg.querySelectorAll('rect:not(.backing) + .says')) {
    const box = label.previousElementSibling, inside = label.getAttribute('x') - box.getAttribute('x');
    box.setAttribute('width', Math.ceil(widthOfLabel(label, 'says')) + 2 * inside);
  }
}

const laneOf = part => +/\((\d+)/.exec(part.closest('[transform]').getAttribute('transform'))[1];

// How far the labels of an event reach to the left and to the right of its lane, in the picture's units.
function reachesOf(svg, event) {
  return ['cause', 'says'].map(kind => {
    const labels = [...svg.querySelectorAll(`[data-e="${event}"] .${kind}`)];
    const widest = Math.max(0, ...labels.map(label => widthOfLabel(label, kind)));
    return BESIDE[kind] + widest + 2 * PADDING + LINE;
  });
}

// The left end and the right end of all labels, in the picture's units.
function endsOfLabels(svg) {
  const lefts = [...svg.querySelectorAll('.cause')].map(label =>
    laneOf(label) - BESIDE.cause - widthOfLabel(label, 'cause'));
  const rights = [...svg.querySelectorAll('.event ~ g .says')].map(label =>
    laneOf(label) + BESIDE.says + 2 * PADDING + widthOfLabel(label, 'says'));
  return [Math.floor(Math.min(...lefts)) - 2 * PADDING, Math.ceil(Math.max(...rights)) + 2 * PADDING + LINE];
}
