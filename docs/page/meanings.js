'use strict';
// The meaning of messages and of results, in words. The facts are those of the trace.

// A value with its command.
function valueInWords({ commands }, value) {
  return commands.has(value) ? `${value} (${commands.get(value)})` : value;
}

const MEANINGS = {
  Suggest: ({ from, instance }, value) => `Server ${from} suggests ${value} for its instance ${instance}.`,
  Skip: ({ from, says }) => {
    const [, first, end] = / instances (\d+) to (\d+)/.exec(says);
    return `Server ${from} skips its instances from ${first} to below ${end}: they are no-op.`;
  },
  Accepted: ({ from, instance, says }) =>
    `Server ${from} accepted the value of ballot ${ballotOf(says)} at instance ${instance}.`,
  Prepare: ({ from, instance, says }) =>
    `Server ${from} asks for promises at instance ${instance}, for ballot ${ballotOf(says)}.`,
  Promise: ({ from, instance, says }, value) => {
    const vote = / vote (\d+) /.exec(says);
    const voted = vote ? `Its vote is ${value} at ballot ${vote[1]}.` : 'It has not voted there.';
    return `Server ${from} promises ballot ${ballotOf(says)} at instance ${instance}. ${voted}`;
  },
  Propose: ({ from, instance, says }, value) =>
    `Server ${from} proposes ${value} for instance ${instance} at ballot ${ballotOf(says)}.`,
  Learn: ({ from, instance }, value) => `Server ${from} reports that ${value} is decided at instance ${instance}.`,
};

const ballotOf = says => / ballot (\d+)/.exec(says)[1];
const meaningOf = (trace, message) => MEANINGS[message.kind](message, valueInWords(trace, message.value));

// Why a message had no effect, from the words of the line `ignored ..`. docs/FORMATS.md explains the reasons.
function whyIgnored([, reason, detail], message) {
  switch (reason) {
    case 'promised': return `the server has promised ballot ${detail}`
      + (message?.kind === 'Prepare' ? ', and a Prepare needs a greater one' : ', and accepts no smaller one');
    case 'tries': return `the server tries ballot ${detail}, not the ballot of this message`;
    case 'learned': return `the server already knows that ${detail} is decided there`;
    case 'proposed': return 'the server has already proposed a value at this ballot';
    default: return [reason, detail].join(' ');
  }
}

// The result of an event. `message` is the message that it delivered, or null.
function resultInWords({ refusal, lines }, message) {
  if (refusal) return `refused, because ${REFUSALS[refusal]}`;
  const words = lines.map(line => lineInWords(line.split(' '), message)).filter(Boolean);
  return words.join(', ') || 'nothing more';
}

// A line of a trace, or an empty text for a line that says nothing about the event's result.
function lineInWords(words, message) {
  switch (words[0]) {
    case 'ignored': return `ignored, because ${whyIgnored(words, message)}`;
    case 'sent': return `sent ${words[1]} ${words[2]} ${labelOf(words.with(1, words[1]))}`;
    case 'promises': case 'acceptances': return `${words[7]} of ${words[9]} ${words[0]} for i${words[3]} b${words[5]}`;
    case 'learned': case 'executed': return `${words[0]} i${words[3]} = ${words[5]}`;
    case 'front': return '';
    default: return words.join(' ');
  }
}
