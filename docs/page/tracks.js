'use strict';
// The tracks of the instances, below the lanes of the strip. Each instance has a track from its first event to its last
// one, with marks where servers suspected its owner, learned its value and executed it.

// In pixels: the height of a track.
const TRACK = 9;
// In instances: a longer Skip has no tracks of its own. Its instances have tracks if other events are about them.
const LONGEST_SKIP = 200;
const TRACK_MARKS = { suspect: [0.9, 0.1], learned: [0.75, 0.25], 'no-op': [0.75, 0.25], executed: [1, 0] };

// The events about each instance, in the order of the instances, as pairs of an instance and a list of places.
function tracksOf(trace) {
  const tracks = new Map();
  outcomesOf(trace).forEach(({ spans, isVain }, place) => {
    if (isVain) return;
    for (const instance of new Set(spans.flatMap(span => instancesOfSpan(span, trace.servers)))) {
      if (!tracks.has(instance)) tracks.set(instance, []);
      tracks.get(instance).push(place);
    }
  });
  return [...tracks].sort(([one], [other]) => one - other);
}

function instancesOfSpan([first, end], servers) {
  const size = Math.ceil((end - first) / servers);
  return size > LONGEST_SKIP ? [] : Array.from({ length: size }, (_, index) => first + index * servers);
}

// The lines and marks of the tracks. The first track begins at `top`.
function drawTracks(trace, top) {
  const all = outcomesOf(trace), tracks = tracksOf(trace);
  const parts = tracks.flatMap(([instance, places], index) => {
    const y = top + index * TRACK, owner = ownerOf(instance, trace.servers);
    const line = `M${places[0] + 0.5} ${y + TRACK / 2}H${places.at(-1) + 0.5}`;
    return [svgEl('path', { class: `track ${owner}`, d: line }),
      ...marksOfTrack(all, instance, places).map(([kind, at]) => markOfTrack(kind, owner, at, y))];
  });
  return { parts, names: tracks.map(([instance]) => instance), height: tracks.length * TRACK };
}

// The marks of a track, as pairs of a kind and its places. A suspicion has the same mark in the track of each instance.
function marksOfTrack(all, instance, places) {
  const isMark = (kind, { result, about }) => result === kind && (kind === 'suspect' || about.includes(instance));
  return Object.keys(TRACK_MARKS).map(kind => [kind, places.filter(place => isMark(kind, all[place]))]);
}

function markOfTrack(kind, owner, places, y) {
  const [low, high] = TRACK_MARKS[kind].map(part => y + part * TRACK);
  const d = places.map(place => `M${place + 0.5} ${low}V${high}`).join('');
  return svgEl('path', { class: `${kind} ${owner}`, d });
}
