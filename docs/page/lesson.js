'use strict';
// The steps of the tutorial. docs/page/build takes them from docs/TUTORIAL.md. The answer of a step is found once the
// trace of the events up to the cursor contains everything that the answer names.

const lesson = { step: 0, found: new Set() };

function fillLessons() {
  $('lessons').replaceChildren(...DATA.lessons.map((step, index) => el('li', {},
    el('button', { 'data-step': index + 1, title: step.title, 'aria-label': `step ${index + 1}: ${step.title}` },
      String(index + 1)))));
}

function showStep(number) {
  lesson.step = number;
  const step = DATA.lessons[number - 1];
  for (const button of $('lessons').querySelectorAll('button')) {
    const isHere = +button.dataset.step === number;
    if (isHere) button.setAttribute('aria-current', 'step'); else button.removeAttribute('aria-current');
  }
  $('step').innerHTML = step ? stepText(step, number) : DATA.welcome;
}

// docs/page/build made the texts of the steps, as HTML.
function stepText(step, number) {
  const following = DATA.lessons[number];
  const next = following ? `<button data-step="${number + 1}">next: ${following.title}</button>` : '';
  const hasEvents = step.schedule.events.length > 0;
  const press = hasEvents ? '<p class="soft">Press <kbd>→</kbd> or ▶ to step through it.</p>' : '';
  return `<h2>${number}. ${step.title}</h2>${step.before}${press}${step.after}
    <div class="question"><p><b>Find out:</b> ${step.question}</p><p id="found" class="verdict" role="status"></p>
    <details><summary>answer</summary>${step.answer}</details></div>
    <p class="acts"><button data-replay>replay</button><button data-step="${number}">begin again</button>${next}</p>`;
}

const isFound = (step, lines) => step.goals.every(goal => lines.some(line => ` ${line} `.includes(` ${goal} `)));

// Shows that the user found the answer of the current step, and opens it.
function lookForAnswer(trace) {
  const step = DATA.lessons[lesson.step - 1];
  if (!step || !isFound(step, linesOf(trace))) return;
  $('found').textContent = 'Found.';
  $('step').querySelector('details').open = true;
  lesson.found.add(lesson.step);
  $('lessons').querySelector(`[data-step="${lesson.step}"]`).classList.add('found');
}

function* eventLines({ events }) {
  for (const { text, refusal, lines } of events) {
    if (refusal) continue;
    yield text;
    yield* lines;
  }
}

const linesOf = trace => [...eventLines(trace)];
