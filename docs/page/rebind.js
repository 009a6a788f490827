'use strict';
// A change in the middle of a schedule changes the numbers of later messages, because numbers follow the order of
// sending. The later deliveries and losses keep their meaning: they get the number of the message that says the same.
// If several messages say the same, they keep their order. conformance/adapt does the same.
//
// If no message says the same, the change may have altered its value, its vote or its end. Then they get the number of
// the message with the same kind, sender, receiver, instance and ballot. The page says how often that happened.

// Each pass fixes at least one event. After so many passes, the events that are not fixed are taken out.
const MOST_PASSES = 60;

const messageOf = event => /^(deliver|lose) (\d+) (\d+)$/.exec(event);

// What a message says without its value, its vote or its end. A Suggest of another command is another message.
const partOf = ({ kind, says }) =>
  (kind === 'Suggest' ? says : says.replace(/( instance \d+(?: ballot \d+)?).*/, '$1'));

// The names of messages, in the order of sending: a text of a message, and how many earlier ones have the same text.
function namesOf(messages, textOf) {
  const counts = new Map();
  return messages.map(message => {
    const text = textOf(message), earlier = counts.get(text) ?? 0;
    counts.set(text, earlier + 1);
    return `${earlier} ${text}`;
  });
}

const saysOf = ({ says }) => says;
const numbersOf = names => new Map(names.map((name, number) => [name, number]));

const sentBefore = (trace, place) => trace.events[place]?.firstMessage ?? trace.messages.length;

// Renumbers the events of `former` from the place `from` on, to follow the events of `prefix`. Returns the new schedule
// and what became of the later events: `gone` are those that were taken out because nobody sends their message now,
// `altered` is the number of those whose message says something else now, and `refused` of those refused now.
// `traceOf` returns the trace of a schedule, as { trace }, or null.
function rebound(former, from, prefix, traceOf) {
  const later = former.events.slice(from), old = later.length > 0 && traceOf(former)?.trace;
  if (!old) return { schedule: prefix, gone: [], altered: 0, refused: 0 };
  const start = prefix.events.length, names = [saysOf, partOf].map(textOf => namesOf(old.messages, textOf));
  let texts = firstGuess(later, old, from, traceOf(prefix)?.trace ?? old);
  for (let pass = 0; ; pass += 1) {
    const schedule = { ...prefix, events: [...prefix.events, ...texts.filter(text => text !== null)] };
    const trace = traceOf(schedule)?.trace;
    if (!trace) return null;
    const better = boundTo({ later, old, from, names }, texts, trace, start);
    const wrong = better.findIndex((text, index) => text !== texts[index]);
    if (wrong < 0) return { schedule, ...comparison(later, texts, { old, from, trace, start }) };
    texts = pass < MOST_PASSES ? better : better.map((text, index) => (index <= wrong ? text : null));
  }
}

// The events, after the difference of the message counts is added to all numbers from the change on.
function firstGuess(later, old, from, { messages }) {
  const first = sentBefore(old, from), by = messages.length - first;
  return later.map(event => {
    const named = messageOf(event);
    return named && +named[2] >= first ? `${named[1]} ${+named[2] + by} ${named[3]}` : event;
  });
}

// The later events with the numbers that a trace gives their messages, or null if it does not send them in time.
function boundTo({ later, old, from, names }, texts, trace, start) {
  const numbers = [saysOf, partOf].map(textOf => numbersOf(namesOf(trace.messages, textOf)));
  let place = start;
  return later.map((event, index) => {
    const sent = sentBefore(trace, place), named = messageOf(event);
    if (texts[index] !== null) place += 1;
    if (!named) return event;
    const past = +named[2] - sentBefore(old, from + index);
    const found = past >= 0 ? [sent + past] : names.map((list, at) => numbers[at].get(list[+named[2]]));
    const number = found.find(one => past >= 0 || one < sent);
    return number === undefined ? null : `${named[1]} ${number} ${named[3]}`;
  });
}

// What became of the later events.
function comparison(later, texts, { old, from, trace, start }) {
  const came = { gone: [], altered: 0, refused: 0 };
  let place = start;
  texts.forEach((text, index) => {
    if (text === null) { came.gone.push(later[index]); return; }
    const [before, after] = [later[index], text].map(event => messageOf(event)?.[2]);
    if (old.messages[before]?.says !== trace.messages[after]?.says) came.altered += 1;
    if (trace.events[place].refusal && !old.events[from + index].refusal) came.refused += 1;
    place += 1;
  });
  return came;
}
