'use strict';
// The two texts that a user can edit: the schedule, and the log of a store. The program reports mistakes in them.

// In letters. The browser needs seconds to lay out a copy of a longer text.
const LONGEST_MARKED = 200_000;

// Marks a place in a text area. A copy of the text under the area contains the mark.
function mark(area, place) {
  const behind = area.previousElementSibling, text = area.value;
  behind.replaceChildren();
  if (text.length > LONGEST_MARKED) return;
  if (place) {
    const [start, end] = place;
    const marked = el('mark', {}, text.slice(start, end) || ' ');
    behind.append(text.slice(0, start), marked, text.slice(Math.max(end, start)));
  } else {
    behind.append(text);
  }
  behind.append('\n');
  behind.scrollTop = area.scrollTop;
}

function showVerdict(id, text, isBad) {
  $(id).className = isBad ? 'verdict bad' : 'verdict';
  $(id).textContent = text;
}

// ---- the schedule

// A draft is a text of the editor that is not the schedule of the page. `log` is the log that the user wrote or opened,
// or null. `judged` is the log that the page judges.
const draft = { isOpen: false, log: null, judged: '' };

// Shows a text in the editor that the program may refuse.
function openDraft(text) {
  draft.isOpen = true;
  setTab('editor');
  $('source').value = text;
  readEditor(core);
}

function discardDraft() {
  draft.isOpen = false;
  page.edited = null;
  hideBadLink();
  showTab();
}

// Checks the text of the editor. Marks a mistake, or returns the schedule if there is none.
function readEditor(core) {
  const area = $('source'), answer = core.call(['check'], area.value);
  if (answer.status === 0 && / workers /.test(answer.printed)) {
    mark(area, null);
    const kind = `${answer.printed.trim()}: a run.`;
    showVerdict('verdict', `${kind} Its workers choose the events. The button below draws a schedule from this run.`);
    return null;
  }
  const words = answer.status === 0 ? answer.printed.trim() : wordsOf(answer.said);
  area.setAttribute('aria-invalid', answer.status !== 0);
  mark(area, answer.status === 0 ? null : placeOfMistake(area.value, words));
  showVerdict('verdict', words, answer.status !== 0);
  return answer.status === 0 ? readScenario(area.value) : null;
}

// ---- a schedule that a worker draws

// The run of the form: two commands of a client for each server.
function planOf(schedule) {
  const commands = Array.from({ length: schedule.servers }, (_, server) =>
    [`${server + 1}.0 set a v${server}`, `${server + 1}.1 get a`]);
  const [seed, turns, loss] = ['seed', 'turns', 'loss'].map(id => $(id).value.trim() || '0');
  const course = [['workers', 1], ['seed', seed], ['turns', turns], ['loss', loss]];
  return `{${fieldsOf([['version', 1], ...saidOf(schedule), ...course])},\n "commands": ${JSON.stringify(commands)}}`;
}

// The schedule that a worker draws from the run in the editor. Without a run there, the form and the members of the
// former schedule give the run.
function drawByWorker(core, former) {
  const isRun = / workers /.test(core.call(['check'], $('source').value).printed);
  const plan = isRun ? $('source').value : planOf(former);
  const answer = core.call(['run', '--journal'], plan);
  $('plan').textContent = plan;
  if (answer.status !== 0) {
    showVerdict('run-verdict', wordsOf(answer.said), true);
    return null;
  }
  const schedule = readScenario(answer.printed.split('\n')[0]);
  showVerdict('run-verdict', `the worker chose ${count(schedule.events.length, 'event')} that the cluster accepted`);
  return schedule;
}

// ---- the log of a store

// The log that an observer of this schedule would write.
function logOf({ events }) {
  const seen = [];
  for (const { text, refusal, lines } of events) {
    if (refusal) continue;
    if (text.startsWith('submit ')) seen.push(text.replace(/^submit \d+/, 'submit'));
    for (const line of lines) {
      const words = line.split(' ');
      if (words[0] === 'executed' && words[5] !== 'no-op') seen.push(`execute ${words[1]} ${words[5]}`);
      if (words[0] === 'reply') seen.push(line);
    }
  }
  return seen.map(line => line + '\n').join('');
}

// Puts a log into its field, unless the browser would need seconds to lay it out.
function showLog(text) {
  const isLong = text.length > LONGEST_IN_FIELD;
  $('log').value = isLong ? '' : text;
  draft.judged = isLong ? text : $('log').value;
  $('log').placeholder = isLong ? 'The log is too long for this field, but it is judged, and shown as a timeline.' : '';
}

// Keeps a log that the user wrote or opened.
function keepLog(text) {
  if (draft.log === null) $('logs').add(new Option('your own log', 'own'));
  $('logs').value = 'own';
  draft.log = draft.judged = text;
}

// Shows and judges the log that is chosen in the list.
function chooseLog() {
  const { value } = $('logs');
  hideWays();
  showLog(value === 'own' ? draft.log : DATA.logs[value] ?? logOf(page.now.trace));
  judgeLog(core);
}

function wireLog() {
  for (const name of Object.keys(DATA.logs)) $('logs').add(new Option(name.replaceAll('_', ' '), name));
  $('logs').add(new Option('the log of the schedule', ''));
  showLog(DATA.logs[$('logs').value = 'same_order']);
  $('logs').onchange = chooseLog;
  $('clients').onchange = () => judgeLog(core);
  $('log').oninput = () => {
    hideWays();
    keepLog($('log').value);
    later('judge', 150, () => judgeLog(core));
  };
}

// Judges the log. A long one, or what clients saw, is judged in a worker, so that the page goes on.
function judgeLog(core) {
  const text = draft.judged, args = judgeArguments();
  judging.wanted = null;
  clearTimeout(later.timeline);
  // The search for an order may take long, even if the log is short.
  if (text.length <= JUDGED_AT_ONCE && !$('clients').checked) {
    showJudgement(text, core.call(args, text));
    return;
  }
  showVerdict('judgement', 'judging ..');
  showJudging();
  for (const id of ['quoted', 'in-words']) $(id).textContent = '';
  mark($('log'), null);
  judgeInWorker({ args, text }, answer => showJudgement(text, answer));
}

// Shows the verdict on a log, the lines that it quotes, and what it means. For a violation, the program says that.
function showJudgement(text, answer) {
  const [verdict, ...quoted] = answer.printed.trim().split('\n'), words = verdict.split(' ');
  const isBroken = words[0] === 'violation', sentence = isBroken ? quoted.pop() ?? brokenInWords(words) : '';
  const said = verdict || wordsOf(answer.said);
  const isMarked = (isBroken || !verdict) && $('log').value === text;
  mark($('log'), isMarked ? placeOfMistake(text, isBroken ? `line ${words[1]}` : said) : null);
  showVerdict('judgement', said, answer.status !== 0);
  $('quoted').textContent = quoted.join('\n');
  $('in-words').textContent = isBroken ? sentence : verdict ? keptInWords(words) : badLineInWords(said);
  fillTimeline(text, answer);
}

// Explains a mistake in a line of a log. For other faults, the text is empty.
function badLineInWords(said) {
  if (!said.startsWith('line ')) return '';
  return said.includes(': the log ends in it')
    ? 'The last line has no end, so there is no verdict. Put a line break after it.'
    : 'This line is not an observation, so there is no verdict.';
}

function keptInWords(w) {
  if (isOnClients(w)) return seenInWords(w);
  const repliesOf = number => `${number} ${number === 1 ? 'reply' : 'replies'}`;
  const kept = `All ten promises are kept: ${count(+w[2], 'server')} executed ${w[6]} of ${count(+w[4], 'command')},`
    + ` ${repliesOf(w[8] - w[10])} and ${count(+w[12], 'lookup')} are right.`;
  if (w[0] === 'ok') return kept;
  const open = w[10] === '0' ? 'No server executed a command.'
    : `Whether ${repliesOf(+w[10])} to commands that are in no history ${w[10] === '1' ? 'is' : 'are'} right could not`
    + ' be judged.';
  const seen = w[6] === '0' && w[8] !== '0' ? ' Choose “only what clients saw” to judge it without executions.' : '';
  return `${kept} But that says too little. ${open}${seen}`;
}
