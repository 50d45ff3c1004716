'use strict';
// The tab Timeline: who had the processor in the session so far, as agc-study draws it. Its page is in a frame that reaches nothing; a
// click there names a cycle, and time goes to it.

const NO_TABLES = 'There is no timeline: the places of the Executive’s tables are not known. Start agc-web with --watch SPEC, or put a file ROPE.watch beside the rope.';

let timelines = 0; // that were made

function keepTimeline({ watch }) {
  find('timeline-make').hidden = !watch;
  if (!watch) setText(find('timeline-said'), NO_TABLES);
  else if (!timelines) setText(find('timeline-said'), 'It shows the session up to the present cycle.');
}

async function makeTimeline() {
  const button = find('timeline-make');
  button.disabled = true;
  setText(find('timeline-said'), 'The timeline is being made …');
  const answer = await session.makeTimeline().catch(() => ({ error: 'There is no answer.' }));
  button.disabled = false;
  if (answer.status === 200) showTimeline(answer.cycle);
  else setText(find('timeline-said'), `No timeline was made: ${answer.error}`);
}

// Shows the timeline that was made, up to a cycle. Its address differs from that of the one before, which is still shown.
function showTimeline(cycle) {
  timelines += 1;
  const address = `${session.timelineAddress}?kept=${timelines}`;
  const frame = find('timeline-frame');
  frame.src = address;
  frame.hidden = false;
  find('timeline-alone').href = address;
  find('timeline-alone').hidden = false;
  setText(find('timeline-make'), 'Make it again');
  setText(find('timeline-said'), `Up to ${(cycle / CYCLES_A_SECOND).toFixed(3)} s, cycle ${grouped(cycle)}. Click in it: time goes there.`);
}

// Takes what the timeline says: the cycle that was clicked. The keys become the DSKY's again.
function followFrame({ source, data }) {
  const frame = find('timeline-frame');
  if (source !== frame.contentWindow || data?.timeline !== 'cycle' || !Number.isSafeInteger(data.cycle) || data.cycle < 0) return;
  frame.blur();
  window.focus();
  goExactly(data.cycle);
}

function buildTimeline() {
  find('timeline-make').addEventListener('click', makeTimeline);
  window.addEventListener('message', followFrame);
}
