'use strict';
// The filter of the picture. Hidden events lose their rows, and the rows below them move up. The schedule is the same.

// `server` and `instance` are numbers, or null for all. `isBrief` hides what was ignored, repeated or refused.
const filter = { server: null, instance: null, isBrief: false, found: null };

// In the picture's units: the height of the gap that stands for a run of hidden events.
const GAP = 14;

const isFiltered = () => filter.server !== null || filter.instance !== null || filter.isBrief;

function passes(outcome, servers) {
  const { server, instance, isBrief } = filter;
  const isOfServer = server === null || server >= servers || outcome.server === server;
  return isOfServer && (!isBrief || !outcome.isVain) && (instance === null || isAbout(outcome, instance, servers));
}

// The numbers of the events that pass the filter, in order.
function passing({ trace }) {
  const key = `${filter.server} ${filter.instance} ${filter.isBrief}`, { found } = filter;
  if (found && found.trace === trace && found.key === key) return found.list;
  const list = [], all = isFiltered() ? outcomesOf(trace) : trace.events;
  all.forEach((outcome, event) => { if (!isFiltered() || passes(outcome, trace.servers)) list.push(event); });
  filter.found = { trace, key, list };
  return list;
}

// The events that the picture shows: those that pass the filter, and the one before the cursor.
function shownEvents(whole, cursor) {
  const list = passing(whole), at = countBelow(list, cursor - 1);
  if (cursor === 0 || list[at] === cursor - 1) return list;
  return [...list.slice(0, at), cursor - 1, ...list.slice(at)];
}

// How many numbers of an ascending list are less than a number.
function countBelow(list, number) {
  let [low, high] = [0, list.length];
  while (low < high) {
    const middle = (low + high) >> 1;
    if (list[middle] < number) low = middle + 1; else high = middle;
  }
  return low;
}

// The cursor `by` shown events further on, or back if `by` is negative.
function cursorAfterStep(by) {
  const list = passing(page.whole), { cursor, schedule } = page;
  if (by > 0) return (list[countBelow(list, cursor) + by - 1] ?? schedule.events.length - 1) + 1;
  return (list[countBelow(list, cursor - 1) + by] ?? -1) + 1;
}

const step = by => go(cursorAfterStep(by));

// ---- folding of a picture

// Takes the hidden events out of a picture and moves the rest up. `rows` are all rows of the picture, as
// { event, top, height }, and `shown` the events that stay. Returns the new rows.
function fold(svg, rows, shown) {
  const isShown = new Set(shown), places = [];
  let top = rows[0]?.top ?? 0, run = 0;
  for (const row of rows) {
    const stays = isShown.has(row.event);
    if (!stays && run === 0) top += GAP;
    run = stays ? 0 : run + 1;
    places.push({ row, stays, run, top });
    if (stays) top += row.height;
  }
  if (places.every(({ stays }) => stays)) return rows;
  for (const part of svg.querySelectorAll('[data-e]')) if (!isShown.has(+part.dataset.e)) part.remove();
  const tops = rows.map(row => row.top);
  moveUp(svg, y => foldedPlace(places, tops, y));
  return places.filter(({ stays }) => stays).map(({ row, top: folded }, index, all) =>
    ({ event: row.event, top: folded, height: row.height, hidden: hiddenBetween(all[index - 1], row, rows[0]) }));
}

const hiddenBetween = (former, { event }, first) => event - (former ? former.row.event + 1 : first.event);

// Where a place of the unfolded picture is now.
function foldedPlace(places, tops, y) {
  const index = countBelow(tops, y - TOP + 0.5) - 1;
  if (index < 0) return y;
  const { row, stays, top } = places[index];
  return TOP + (stays ? top + y - TOP - row.top : top - GAP / 2);
}

function moveUp(svg, placeOf) {
  for (const part of svg.querySelectorAll('[data-e] [transform], [data-e][transform]')) {
    part.setAttribute('transform', part.getAttribute('transform').replace(/ (\d+)\)/, (_, y) => ` ${placeOf(+y)})`));
  }
  for (const arrow of svg.querySelectorAll('.way')) {
    arrow.setAttribute('d', arrow.getAttribute('d').replace(/(\d+) (\d+)/g, (_, x, y) => `${x} ${placeOf(+y)}`));
  }
  for (const line of svg.querySelectorAll('.lane .line')) {
    line.setAttribute('d', line.getAttribute('d').replace(/V(\d+)/, (_, y) => `V${placeOf(+y)}`));
  }
  // The rules of the hidden rows of a gap have one place. On top of each other they would be a dark line.
  const places = new Set();
  for (const rule of svg.querySelectorAll('.rule')) {
    const d = rule.getAttribute('d').replace(/M0 (\d+)/, (_, y) => `M0 ${placeOf(+y)}`);
    if (places.has(d)) rule.remove(); else rule.setAttribute('d', d);
    places.add(d);
  }
}
