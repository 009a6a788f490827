'use strict';
// The schedule in the address of the page. A short one is readable, because no word of an event needs an escape. A long
// one is compressed. If even that is too long, the page says so, and warns before it is left.

// In characters. Some browsers and programs for messages do not accept longer links.
const LONGEST_READABLE = 8_000;
const LONGEST_LINK = 60_000;

// The link that the page wrote last, and whether it contains the schedule. A frozen address contains a link with a
// mistake, which stays until the schedule changes. `saved` is the schedule that was saved as a file last.
const address = { written: '', isWhole: true, isFrozen: false, saved: null };

// ---- links

async function throughStream(bytes, stream) {
  return new Uint8Array(await new Response(new Blob([bytes]).stream().pipeThrough(stream)).arrayBuffer());
}

async function compressed(text) {
  const bytes = await throughStream(new TextEncoder().encode(text), new CompressionStream('deflate-raw'));
  const letters = Array.from(bytes, byte => String.fromCharCode(byte)).join('');
  return btoa(letters).replaceAll('+', '-').replaceAll('/', '_').replaceAll('=', '');
}

async function decompressed(text) {
  const bytes = bytesOfBase64(text.replaceAll('-', '+').replaceAll('_', '/'));
  return new TextDecoder().decode(await throughStream(bytes, new DecompressionStream('deflate-raw')));
}

// The link to a schedule, or null if it would be too long.
async function linkTo(schedule, cursor, step) {
  const members = saidOf(schedule).map(([name, value]) => `${DATA.members[name].letter}=${value}&`).join('');
  const head = `#${members}at=${cursor}${step ? `&step=${step}` : ''}`;
  const readable = () => schedule.events.map(event => encodeURIComponent(event).replaceAll('%20', '+')).join(';');
  const link = schedule.events.length * 6 > LONGEST_READABLE ? null : `${head}&e=${readable()}`;
  if (link && link.length <= LONGEST_READABLE) return link;
  const packed = `${head}&z=${await compressed(schedule.events.join(';'))}`;
  return packed.length > LONGEST_LINK ? null : packed;
}

// The content of a link, or null if it is not a link to a schedule. The program must still check the schedule.
async function readLink(hash) {
  const fields = /^#((?:[a-z]=\d+&)+)at=(\d+)(?:&step=(\d+))?&([ez])=(.*)$/.exec(hash);
  if (!fields) return null;
  const said = new Map(fields[1].split('&').slice(0, -1).map(part => [part[0], Number(part.slice(2))]));
  const named = Object.entries(DATA.members).map(([name, { letter }]) => [name, said.get(letter)]);
  const members = membersOf(Object.fromEntries(named));
  const [cursor, step] = fields.slice(2, 4).map(digits => Number(digits || 0));
  const events = await eventsOf(fields[4], fields[5]);
  return events && !Object.values(members).includes(undefined)
    ? { schedule: { ...members, events }, cursor, step } : null;
}

async function eventsOf(kind, text) {
  try {
    const whole = kind === 'z' ? await decompressed(text) : text;
    return whole === '' ? [] : whole.split(';').map(part => (kind === 'z' ? part : readPart(part)));
  } catch {
    return null;
  }
}

function readPart(text) {
  try {
    return decodeURIComponent(text.replaceAll('+', ' '));
  } catch {
    return text;
  }
}

// ---- the address

// Writes the schedule to the address, and says whether it fits.
async function keepAddress() {
  if (address.isFrozen) return;
  const { schedule, cursor } = page, link = await linkTo(schedule, cursor, lesson.step);
  if (schedule !== page.schedule || cursor !== page.cursor || address.isFrozen) return;
  history.replaceState(null, '', link ?? '#');
  Object.assign(address, { written: location.hash, isWhole: link !== null });
  $('kept').className = address.isWhole ? '' : 'bad';
  $('kept').textContent = address.isWhole ? 'The address contains the schedule.'
    : 'This schedule is too long for the address. JSON saves it.';
}

// Whether something would be lost if the page was closed.
function isUnsaved() {
  const { schedule } = page, isKept = address.isWhole || address.saved === schedule || schedule.events.length === 0;
  return draft.isOpen || draft.log !== null || !isKept;
}

// ---- links with a mistake

const NO_LINK = 'The address is not a link to a schedule, or a part of it is missing.';
const NO_TRACE = 'the program cannot trace it';

// Says what is wrong with the link in the address. A link that the program refuses also becomes a draft. The address
// and the line with the mistake stay until the schedule changes.
function showBadLink(link, mistake) {
  address.isFrozen = true;
  $('kept').className = 'bad';
  $('kept').textContent = 'The address contains a link with a mistake.';
  const [words, toDraft] = $('bad-link').children;
  words.textContent = link ? `The link in the address has a mistake: ${mistake ?? NO_TRACE}` : NO_LINK;
  toDraft.hidden = !link;
  $('bad-link').hidden = false;
  makeRoomForBadLink();
  if (link) openDraft(asFile(link.schedule));
}

// The schedule has changed, so the address may change too.
function freeAddress() {
  address.isFrozen = false;
  hideBadLink();
}

function hideBadLink() {
  if ($('bad-link').hidden) return;
  $('bad-link').hidden = true;
  makeRoomForBadLink();
}

// In narrow windows, the names of the servers stay in sight below the line.
function makeRoomForBadLink() {
  document.documentElement.style.setProperty('--warn', `${$('bad-link').offsetHeight}px`);
}

function goToDraft() {
  setTab('editor');
  $('source').scrollIntoView({ block: 'center' });
  $('source').focus({ preventScroll: true });
}

function wireBadLink() {
  $('bad-link').onclick = ({ target }) => {
    const to = target.closest('[data-to]')?.dataset.to;
    if (to === 'draft') goToDraft();
    if (to === 'nothing') hideBadLink();
  };
}

// ---- a link for others

async function shareLink() {
  const link = await linkTo(page.schedule, page.cursor, lesson.step);
  if (!link) {
    say('The schedule is too long for a link. Click JSON to save it as a file.');
    return;
  }
  const here = location.href.split('#')[0];
  if (location.protocol !== 'file:') {
    copy(here + link);
    return;
  }
  const base = $('base'), show = () => { $('shared').value = base.value.split('#')[0] + link; };
  base.value ||= here;
  base.oninput = show;
  show();
  $('share').showModal();
}

async function copy(text) {
  try {
    await navigator.clipboard.writeText(text);
    say('The link is in the clipboard. It contains the whole schedule.');
  } catch {
    say('The browser does not allow the page to copy. Copy the link from the address bar or from the field.');
  }
}
