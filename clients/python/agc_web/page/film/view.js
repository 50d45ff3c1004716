// What the instruments of a session showed, beside the DSKY of its film. Each line of the block is a cycle, and the views of the
// instruments from there on, as JSON.
const lines = find('left-view').textContent.split(LINE).filter(Boolean);
const cycles = lines.map((line) => Number(line.slice(0, line.indexOf(' '))));
const place = make('div', { class: 'views' });
let shownLine = -1;

function addPanel({ title = 'Instrument' }) {
  const panel = make('section', { class: 'instrument', 'aria-label': title }, make('h2', {}, title), ...buildView());
  place.append(panel);
  return panel;
}

function follow() {
  const line = Math.max(0, lastUpTo(cycles, Number(document.body.dataset.cycle)));
  if (line === shownLine) return;
  shownLine = line;
  const views = JSON.parse(lines[line].slice(lines[line].indexOf(' ')));
  views.forEach((view, i) => {
    try {
      showView(place.children[i] ?? addPanel(view), view);
    } catch { /* a part of a view is not as it is to be: the film goes on */ }
  });
}

if (runs[0]?.section && lines.length) {
  runs[0].section.classList.add('viewed');
  runs[0].section.append(place);
  new MutationObserver(follow).observe(document.body, { attributes: true, attributeFilter: ['data-cycle'] });
  follow();
}
