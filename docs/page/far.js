'use strict';
// A browser needs some 40 ms to lay out a picture with hundreds of labels, and few of them are in sight. So the parts
// that are far from the cursor's row get the class `far`, which hides them, until the page has painted the rest.

// A picture with fewer parts than this is laid out at once.
const FEW = 80;
// In milliseconds after the page showed a picture: when the first hidden parts appear. Then some appear in each frame.
const AFTER = 60, EACH_FRAME = 50;

// The hidden parts of the picture, as { part, y }.
const far = { parts: [] };

// The place of a part in the picture, or null if it has none.
function heightOf(part) {
  const moved = part.hasAttribute('transform') ? part : part.firstElementChild;
  const place = / ([\d.]+)\)/.exec(moved?.getAttribute('transform') ?? '');
  return place ? +place[1] : null;
}

// Hides the marks and labels of a picture that is not in the page yet.
function setFarAside(svg) {
  const all = [...svg.querySelectorAll(':scope > g[data-e]')];
  far.parts = all.length < FEW ? [] : all.map(part => ({ part, y: heightOf(part) })).filter(({ y }) => y !== null);
  for (const { part } of far.parts) part.classList.add('far');
}

// Shows the parts that may be in sight if the cursor is at a row. The others follow.
function showNear(row) {
  if (far.parts.length === 0) return;
  const sight = picture.sight / picture.zoom, top = TOP + (row?.top ?? 0);
  const isNear = ({ y }) => Math.abs(y - top) <= sight;
  for (const { part } of far.parts.filter(isNear)) part.classList.remove('far');
  far.parts = far.parts.filter(one => !isNear(one));
  later('far', AFTER, showFar);
}

// Shows some hidden parts, and goes on in the next frame.
function showFar() {
  for (const { part } of far.parts.splice(0, EACH_FRAME)) part.classList.remove('far');
  if (far.parts.length > 0) requestAnimationFrame(() => later('far', 0, showFar));
}
