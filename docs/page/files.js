'use strict';
// Files that the user opens or drops on the page, and the worker that judges long logs.

// In letters. A log up to this length is judged within some milliseconds.
const JUDGED_AT_ONCE = 50_000;
// In bytes.
const LONGEST_FILE = 100_000_000;

// ---- the worker

// `wanted` is the newest question, as { question, whenDone }, or null if nobody waits for an answer. A question is
// { args, text }.
const judging = { worker: null, isBusy: false, wanted: null };

// The script of the worker. It starts with the source of the class Core, and gets the compiled module first.
function judgeForPage() {
  let core;
  onmessage = ({ data: { module, args, text } }) => {
    if (module) core = new Core(module, () => {});
    else postMessage(core.call(args, text));
  };
}

function workerOf(module) {
  const script = `'use strict';\n${Core}\n(${judgeForPage})();\n`;
  const place = URL.createObjectURL(new Blob([script], { type: 'text/javascript' }));
  const worker = new Worker(place);
  worker.postMessage({ module });
  return worker;
}

// Judges a log in the worker. If another log is wanted in the meantime, the answer is dropped.
function judgeInWorker(question, whenDone) {
  judging.wanted = { question, whenDone };
  if (judging.isBusy) return;
  judging.worker ??= workerOf(core.module);
  judging.isBusy = true;
  judging.worker.onmessage = ({ data }) => answered(question, data);
  judging.worker.onerror = ({ message }) => {
    judging.worker = null;
    answered(question, { status: 5, printed: '', said: `mencius: the worker stopped: ${message}\n` });
  };
  judging.worker.postMessage(question);
}

const isSameQuestion = (one, other) => one.text === other.text && one.args.join() === other.args.join();

function answered(question, answer) {
  const { wanted } = judging;
  judging.isBusy = false;
  if (wanted === null) return;
  if (!isSameQuestion(wanted.question, question)) {
    judgeInWorker(wanted.question, wanted.whenDone);
    return;
  }
  judging.wanted = null;
  wanted.whenDone(answer);
}

// ---- files

// Opens a schedule, a run, the journal of a run, a log, or a trace or a report of a store.
async function openFile(file) {
  if (file.size > LONGEST_FILE) {
    say(`${file.name} is too long for the page. Judge it with mencius judge.`);
    return;
  }
  const text = await file.text();
  hideWays();
  if (text.trimStart().startsWith('{')) openScenario(file.name, text);
  else if (isOutput(text) || page.tab === 'compare') openOutput(file.name, text);
  else openLog(file.name, text);
}

function openScenario(name, text) {
  // The first line of a journal is a scenario, and a report follows.
  const found = [text, text.split('\n')[0]].find(part => core.call(['check'], part).status === 0);
  const isRun = found && / workers /.test(core.call(['check'], found).printed);
  if (!found || isRun) {
    openDraft(text);
    say(isRun ? `${name} is a run. The button below its text draws a schedule from it.` : `${name} has a mistake.`);
    return;
  }
  const schedule = readScenario(found);
  if (become(schedule, schedule.events.length)) say(`This is ${name}. Undo restores the former schedule.`);
}

function openLog(name, text) {
  showLog(text);
  keepLog(draft.judged);
  setTab('judge');
  say(`This is the log ${name}.`);
}

function wireFiles() {
  $('open').onclick = () => $('file').click();
  $('file').onchange = () => {
    const [file] = $('file').files;
    if (file) openFile(file);
    $('file').value = '';
  };
  addEventListener('dragover', event => event.preventDefault());
  addEventListener('drop', event => {
    event.preventDefault();
    const [file] = event.dataTransfer.files;
    if (file) openFile(file);
  });
}
