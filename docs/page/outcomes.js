'use strict';
// What became of each event, as the lines of a trace say. The strip, the filter and the cards show it.

// An outcome is { act, server, message, spans, result, about, isVain }. `spans` are the instances that the event
// mentions, as [first, end] without the end. `about` are the instances that were learned or executed. An event is in
// vain if it was refused or ignored, or if it repeated a delivery.
const outcomes = new WeakMap();

// The outcomes of all events of a trace. Traces share their first events, so only new events are read.
function outcomesOf(trace) {
  if (!outcomes.has(trace)) {
    const heard = new Set();
    outcomes.set(trace, trace.events.map(event => {
      const isRepeated = heard.has(event.text);
      if (!event.refusal && event.text.startsWith('deliver ')) heard.add(event.text);
      if (!outcomes.has(event)) outcomes.set(event, outcomeOf(trace, event, isRepeated));
      return outcomes.get(event);
    }));
  }
  return outcomes.get(trace);
}

function outcomeOf(trace, event, isRepeated) {
  const { act, server, message } = actOf(trace, event), { result, about } = resultOf(event, act);
  const spans = message ? spansIn(message.says) : [];
  for (const line of event.lines) spans.push(...spansIn(line));
  return { act, server, message, spans, result, about, isVain: isRepeated || ['refused', 'ignored'].includes(result) };
}

// The act of an event, the server that it happens at, and the message that it delivers or loses, or null.
function actOf({ messages }, { text, firstMessage }) {
  const words = text.split(' '), [act] = words, isWay = act === 'deliver' || act === 'lose';
  const isSent = isWay && +words[1] < firstMessage;
  return { act, server: +words[isWay ? 2 : 1], message: isSent ? messages[+words[1]] : null };
}

// The most important result of an event, and the instances that it is about. If an event learned several instances, the
// first one decides whether the result is a no-op.
function resultOf({ refusal, lines }, act) {
  if (refusal) return { result: 'refused', about: [] };
  if (lines.some(line => line.startsWith('ignored '))) return { result: 'ignored', about: [] };
  for (const result of ['executed', 'learned']) {
    const found = lines.filter(line => line.startsWith(`${result} `)), about = found.map(line => +line.split(' ')[3]);
    const isNoOp = result === 'learned' && found[0]?.endsWith(' no-op');
    if (about.length > 0) return { result: isNoOp ? 'no-op' : result, about };
  }
  return { result: act === 'deliver' ? 'heard' : act, about: [] };
}

// The instances in a message or a line of a trace.
function spansIn(text) {
  const skip = / instances (\d+) to (\d+)/.exec(text);
  if (skip) return [[+skip[1], +skip[2]]];
  const one = / instance (\d+)/.exec(text);
  return one ? [[+one[1], +one[1] + 1]] : [];
}

// Whether an event was about an instance. A Skip is only about the instances of its sender.
function isAbout({ spans }, instance, servers) {
  return spans.some(([first, end]) => first <= instance && instance < end && (instance - first) % servers === 0);
}
