'use strict';
// What all parts of the page use: words of the machine as text, and commands to the session.

const LINE = '\n';
const SLOW = 400; // milliseconds after which the page says that it works on something

const find = (id) => document.getElementById(id);

const octal = (word, digits = 5) => word.toString(8).padStart(digits, '0');

// Writes a word of so many bits, in ones' complement, as a signed decimal.
function decimal(word, bits = 15) {
  const all = 2 ** bits - 1;
  return word > all / 2 ? `−${all - word}` : String(word);
}

const grouped = (number) => String(number).replace(/\B(?=(\d{3})+$)/g, ',');

// Has the browser download a text.
async function download(name, text) {
  const address = URL.createObjectURL(new Blob([await text], { type: 'text/plain' }));
  make('a', { href: address, download: name }).click();
  setTimeout(() => URL.revokeObjectURL(address), 1000);
}

// Runs tasks one after another: a request is sent once the one before is answered, so that keys stay in their order.
let turn = Promise.resolve();
let pending = 0;
function inTurn(task) {
  pending += 1;
  const done = turn.then(task);
  turn = done.catch(() => {}).then(() => { pending -= 1; });
  return done;
}

// Sends a request once the one before is answered. Returns the answer; null, and says so, if there is none.
async function request(task) {
  const slow = setTimeout(() => setText(find('state'), 'working …'), SLOW);
  try {
    return await inTurn(task);
  } catch {
    showFault('There is no answer.');
    return null;
  } finally {
    clearTimeout(slow);
    showState();
  }
}

// Asks the session to do something, and shows why if it does not. Returns whether it was done.
async function ask(command, more = {}) {
  const answer = await request(() => session.do(command, more));
  if (!answer) return false;
  if (answer.sure && await confirmed(command, answer.sure)) return ask(command, { ...more, sure: true });
  showFault(answer.sure ? '' : answer.error || '');
  return answer.status === 200;
}

// Asks the user, in the page, whether what was given since may be dropped.
function confirmed(command, count) {
  const dialog = find('ask');
  const what = count === 1 ? '1 key or other event' : `${count} keys and other events`;
  setText(find('ask-text'), command === 'undo' ? `Undo drops ${what} given since you went back.` : `Going back drops ${what} given since. Undo brings them back.`);
  setText(find('ask-yes'), command === 'undo' ? 'Undo' : 'Go back');
  dialog.returnValue = 'no';
  dialog.showModal();
  return new Promise((done) => {
    dialog.addEventListener('close', () => done(dialog.returnValue === 'yes'), { once: true });
  });
}

// Shows what went wrong with the last thing that the user did here.
let fault = '';
function showFault(text) {
  fault = text;
  showTrouble();
}
