'use strict';
// The judgement of what clients saw: only the submissions and replies of a log count, and the program searches for an
// order of the commands that explains the replies. The verdict comes from the program. This file says what it means.

// The arguments with which the program judges a log.
const judgeArguments = () => ($('clients').checked ? ['judge', '--clients'] : ['judge']);

// Whether a verdict is one on what clients saw. Both judgements share some violations, which have the same meaning.
const isOnClients = ([kind, what]) =>
  ['linearizable', 'undecided'].includes(kind) || (kind === 'unjudged' && what === 'commands');

// What a verdict without a violation means. `w` are its words.
function seenInWords(w) {
  if (w[0] === 'unjudged') return 'No command has a reply, so there is nothing to judge.';
  if (w[0] === 'linearizable') {
    const lost = w[6] === '0' ? '' : ` ${count(+w[6], 'command')} without a reply may have taken effect or not.`;
    return `An order of the ${count(+w[2], 'command')} explains all replies, which are ${w[4]}.${lost}`;
  }
  const why = { waiting: `because ${w[5]} commands of ${w[3]} wait for a reply`,
    configurations: `because ${w[3]} could be in ${w[5]} states or more` }[w[4]];
  return `The search for an order was given up${why ? `, ${why}` : ''}.`;
}

// What a violation means for which the program prints no sentence.
function brokenInWords([, , promise]) {
  return {
    OneCommand: 'A different command was submitted under this identity before.',
    Submitted: 'The command with this reply was never submitted.',
    OneReply: 'The command had a different reply before.',
  }[promise] ?? '';
}
