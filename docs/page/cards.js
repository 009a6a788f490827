'use strict';
// Pointing at a message marks its arrows, its label and its places below the lanes. A card says what a message or an
// event is, and what became of it. The facts come from the lines of the trace.

// In milliseconds: the pointer rests for this time before a card appears.
const REST = 250;
const about = { timer: null, isPinned: false };

// ---- what the pointer is at

// The message or the event at a part of the page, as { message } or { event }, or null.
function pointedAt(part) {
  const way = part.closest('[data-m]'), sent = part.closest('.sent'), mark = part.closest('#drawing svg [data-e]');
  if (way) return { message: +way.dataset.m };
  if (sent) return { message: +sent.id.slice(1) };
  return mark ? { event: +mark.dataset.e } : null;
}

// Marks a message, or no message if the number is null. Its arrows appear once more, in front of the other ones.
function light(number) {
  for (const part of document.querySelectorAll('.lit')) part.classList.remove('lit');
  const over = $('over');
  over?.replaceChildren();
  if (number === null) return;
  const ways = [...$('drawing').querySelectorAll(`.way[data-m="${number}"]`)];
  over?.append(...ways.map(way => way.cloneNode()));
  const places = document.querySelectorAll(`#m${number}, #over .way, #dock [data-m="${number}"]`);
  for (const part of places) part.classList.add('lit');
}

function pointed(event) {
  widenArrows(picture.svg);
  const found = pointedAt(event.target), { clientX, clientY } = event;
  light(found?.message ?? null);
  if (about.isPinned) return;
  closeCard();
  if (found) about.timer = setTimeout(() => openCard(found, clientX, clientY), REST);
}

function unpointed() {
  light(null);
  if (!about.isPinned) closeCard();
}

// ---- the card

function openCard(found, x, y, isPinned = false) {
  about.isPinned = isPinned;
  const box = $('about'), { message, event } = found;
  const parts = message === undefined ? eventCard(event) : messageCard(message, isPinned);
  box.replaceChildren(...parts.filter(part => part !== null));
  box.classList.toggle('pinned', isPinned);
  box.setAttribute('role', isPinned ? 'dialog' : 'tooltip');
  box.hidden = false;
  // Unlike the width of the window, this one does not contain a scroll bar.
  const { clientWidth, clientHeight } = document.documentElement;
  const right = clientWidth - box.offsetWidth - 8, bottom = clientHeight - box.offsetHeight - 8;
  box.style.left = `${Math.max(8, Math.min(x + 14, right))}px`;
  box.style.top = `${Math.max(8, y + 16 <= bottom ? y + 16 : y - box.offsetHeight - 12)}px`;
  if (isPinned) box.querySelector('button')?.focus();
}

function closeCard() {
  clearTimeout(about.timer);
  about.isPinned = false;
  $('about').hidden = true;
}

function messageCard(number, isPinned) {
  const { trace } = page.whole, message = trace.messages[number], place = sentByEvent(trace, number);
  const to = message.to === null ? 'all servers' : `server ${message.to}`;
  const sent = place < page.cursor ? `sent it to ${to}, at` : `sends it to ${to} later, at`;
  return [
    el('h3', { class: ownerOf(message.instance, trace.servers) }, `message ${number}, ${message.kind}`),
    el('p', {}, meaningOf(trace, message)),
    el('p', { class: 'soft' }, `Server ${message.from} ${sent} event ${place}.`),
    el('ul', {}, ...receiversOf(trace, message).flatMap(server => fatesOf(trace, message, server))),
    isPinned ? el('p', { class: 'acts' }, ...choicesFor(number)) : hintFor(number),
  ];
}

function eventCard(number) {
  const { trace } = page.whole, event = trace.events[number], { message } = outcomesOf(trace)[number];
  return [
    el('h3', {}, `event ${number}, ${event.text}`),
    message ? el('p', {}, meaningOf(trace, message)) : null,
    el('p', {}, `Result: ${resultInWords(event, message)}.`),
  ];
}

// The event that sent a message.
function sentByEvent({ events }, number) {
  let place = events.length - 1;
  while (place > 0 && events[place].firstMessage > number) place -= 1;
  return place;
}

function receiversOf({ servers }, { to }) {
  return to === null ? Array.from({ length: servers }, (_, server) => server) : [to];
}

// What became of a message at a server, as items of a list. Events after the cursor have not happened yet.
function fatesOf(trace, message, server) {
  const [heard, lost] = ['deliver', 'lose'].map(act => `${act} ${message.number} ${server}`), came = [];
  trace.events.forEach((event, place) => {
    if (event.refusal || !(event.text === heard || event.text === lost)) return;
    const fate = event.text === lost ? 'lost' : came.length > 0 ? 'heard again' : 'heard';
    const result = fate === 'lost' ? '' : `: ${resultInWords(event, message)}`;
    const time = place < page.cursor ? 'event' : 'later, event';
    came.push({ place, text: `server ${server}, ${time} ${place}: ${fate}${result}` });
  });
  const item = ({ place, text }) => el('li', { class: place >= page.cursor ? 'soft' : null }, text);
  const isDue = dueAt(message.number).includes(server);
  return [...isDue ? [el('li', {}, `server ${server}: on its way`)] : [], ...came.map(item)];
}

// ---- delivery by a click

// The events that a click on a message can make happen after the cursor, as pairs of an event and a text.
function choicesFor(number) {
  const due = dueAt(number), { trace } = page.now, receivers = receiversOf(trace, trace.messages[number]);
  const heard = receivers.filter(server => [...trace.heardBy(server)].some(message => message.number === number));
  const button = (event, text) => el('button', { 'data-do': event }, text);
  return [
    ...due.flatMap(server => [button(`deliver ${number} ${server}`, `deliver to ${server}`),
      button(`lose ${number} ${server}`, `lose for ${server}`)]),
    ...heard.map(server => button(`deliver ${number} ${server}`, `again to ${server}`)),
  ];
}

const dueAt = number => page.now.trace.unheard.filter(pair => pair.number === number).map(({ to }) => to);

function hintFor(number) {
  const due = dueAt(number).length;
  const text = due === 1 ? 'Click the message to deliver it.' : 'Click the message to choose a receiver.';
  return due === 0 ? null : el('p', { class: 'soft' }, text);
}

// A click on the label of a message delivers it, if it is on its way at the cursor. If several servers have not heard
// it, the card asks for the receiver. Returns whether the click had this meaning.
function clickMessage({ target, clientX, clientY }) {
  const sent = target.closest('.sent'), number = sent ? +sent.id.slice(1) : -1, due = sent ? dueAt(number) : [];
  if (due.length === 0) return false;
  if (due.length === 1) add(`deliver ${number} ${due[0]}`);
  else openCard({ message: number }, clientX, clientY, true);
  return true;
}

// Shows the card of the message that has the focus, with buttons.
function explainFocused() {
  const part = document.activeElement?.closest?.('[data-m]');
  if (!part) return;
  const { left, bottom } = part.getBoundingClientRect();
  openCard({ message: +part.dataset.m }, left, bottom, true);
}

// A click in the picture delivers a message, or steps to the event of a row. A finger can't rest, so a touch also shows
// the card.
function clickPicture(event) {
  if (clickMessage(event)) return;
  const place = eventAt(event.clientY), found = pointedAt(event.target);
  if (place !== null) go(place + 1);
  if (found && event.pointerType === 'touch') openCard(found, event.clientX, event.clientY);
}

// Scrolls the stage so that the buttons of a server are next to the summary, not behind it, if a key gave one of them
// the focus. A click moves nothing, because its end would miss the button.
function showFocused(button) {
  const card = button.matches(':focus-visible') && button.closest('.server');
  if (!card) return;
  const { left, right } = card.getBoundingClientRect(), from = $('rows').getBoundingClientRect().right;
  const hidden = right - $('stage').getBoundingClientRect().left - $('stage').clientWidth;
  $('stage').scrollLeft += Math.min(left - from, Math.max(0, hidden));
}

function wireCards() {
  $('picture').onclick = clickPicture;
  $('picture').onmouseover = pointed;
  $('picture').onmouseleave = unpointed;
  $('dock').onmouseover = pointed;
  $('dock').onmouseleave = unpointed;
  // No browser has a property `onfocusin`.
  $('dock').addEventListener('focusin', ({ target }) => {
    light(pointedAt(target)?.message ?? null);
    showFocused(target);
  });
  $('about').onclick = ({ target }) => {
    const button = target.closest('[data-do]');
    if (button) { closeCard(); press(button); focusPicture(); }
  };
  addEventListener('pointerdown', ({ target }) => { if (!target.closest('#about')) closeCard(); });
}
