// lights up what a panel's text says
function showPanel(run, text) {
  if (run.text === text) return;
  run.text = text;
  find(`${run.id}-panel`).textContent = text;
  const fields = Object.fromEntries(text.split(LINE).map((line) => [line.split(' ')[0], line.slice(line.indexOf(' ') + 1)]));
  const lit = fields.LAMPS.split(', ');
  for (const lamp of run.section.querySelectorAll('[data-lamp]')) lamp.classList.toggle('lit', lit.includes(lamp.dataset.lamp));
  for (const field of run.section.querySelectorAll('.digits')) {
    const name = field.dataset.name;
    field.classList.toggle('flash', fields.FLASH === 'on' && (name === 'VERB' || name === 'NOUN'));
    [...field.children].forEach((place, i) => {
      const glyph = fields[name][i];
      const bars = (field.children.length === 6 && i === 0 ? SIGNS : DIGITS)[glyph] || '';
      for (const bar of place.children) bar.classList.toggle('lit', bars.includes(bar.dataset.bar));
    });
  }
}
