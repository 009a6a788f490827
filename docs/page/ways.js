'use strict';
// The line under the title: what this page is, and three ways to begin. It goes away with the first action, and the
// title brings it back.

const FIRST_MESSAGE = 'A client asked server 0 to bind a to x. Server 0 sent message 0 to every server.'
  + ' <b>Click message 0 below server 1</b> to deliver it. The command is decided once server 0 hears that two of the'
  + ' three servers have accepted it.';

const WAYS = {
  learn() {
    setTab('lesson');
    startStep(1);
    focusPicture();
    $('lesson').scrollIntoView({ block: 'nearest' });
    showTopOfPanel();
  },
  // Begins with a command on its way. Undo restores the former schedule.
  build() {
    setTab('editor');
    showStep(0);
    become({ ...emptyOf({ servers: 3 }), events: ['submit 0 1.0 set a x'] }, 1);
    showHint(FIRST_MESSAGE);
    focusPicture();
  },
  // Begins with an example that breaks a promise, unless the user wrote a log.
  judge() {
    setTab('judge');
    $('log-stage').focus({ preventScroll: true });
  },
};

// While the page starts, nothing hides the line.
function hideWays() {
  if (document.body.dataset.started) $('ways').hidden = true;
}

function wireWays() {
  $('ways').onclick = ({ target }) => {
    const button = target.closest('[data-way]');
    if (!button) return;
    WAYS[button.dataset.way]?.();
    hideWays();
  };
  $('title').onclick = () => { $('ways').hidden = !$('ways').hidden; };
}
