'use strict';
// The panels of instruments: each shows a view, and has buttons.

// Shows the views of all instruments, a tab for each; the tabs are made with the first views, which may have failed.
function showInstruments(views) {
  if (!find('instrument-0-panel')) {
    views.forEach(buildInstrument);
    if (shown.about) showTabs(shown.about);
  }
  views.forEach((view, number) => {
    try {
      showInstrument(view, number);
    } catch (error) { // a part of a view is not as it is to be: the rest of the page goes on
      showRow(find(`instrument-${number}-panel`).querySelector('.rows'), 'failed', error);
    }
  });
}

function buildInstrument(view, number) {
  const id = `instrument-${number}`;
  const panel = make('div', { id: `${id}-panel`, class: 'panel instrument', role: 'tabpanel', tabindex: '0' });
  find('inspector').append(panel);
  TABS[id] = view.title;
  document.body.classList.add('with-view');
  panel.append(...buildView());
}

function buildControls(controls, instrument) {
  const tell = (name, down) => ask('control', { instrument, name, down });
  return make('p', { class: 'row controls', role: 'group', 'aria-label': 'Controls' }, ...controls.map(({ name, label, key }) => {
    const button = make('button', { type: 'button', 'data-hold': key || '', 'data-control': name }, label);
    holdable(button, (down) => tell(name, down));
    return button;
  }));
}

// Reports when a button goes down and comes up, by pointer or keyboard.
function holdable(button, report) {
  let isDown = false;
  const set = (down) => {
    if (down === isDown) return;
    isDown = down;
    button.classList.toggle('held', down);
    report(down);
  };
  button.addEventListener('pointerdown', (event) => { button.setPointerCapture(event.pointerId); set(true); });
  for (const kind of ['pointerup', 'pointercancel', 'lostpointercapture', 'blur', 'keyup']) button.addEventListener(kind, () => set(false));
  button.addEventListener('keydown', (event) => { if (event.key === ' ' || event.key === 'Enter') { event.preventDefault(); set(true); } });
  button.hold = set;
}

// Holds the button that a key of the keyboard stands for; returns whether there is one.
function holdByKey(key, down) {
  const button = [...document.querySelectorAll('[data-hold]')].find((each) => each.dataset.hold && each.dataset.hold === key);
  if (button) button.hold(down);
  return Boolean(button);
}

function showInstrument(view, number) {
  const panel = find(`instrument-${number}-panel`);
  const tab = find(`instrument-${number}-tab`);
  if (tab && view.title) setText(tab, view.title);
  showView(panel, view);
  if (view.controls && !panel.querySelector('.controls')) panel.querySelector('.rows').after(buildControls(view.controls, number));
}
