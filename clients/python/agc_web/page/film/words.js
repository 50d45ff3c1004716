// The display in words, below the DSKY of each run, by the file of nouns that the page has in the block `nouns`.
const { faults, ...found } = readNouns(readName(find('nouns').textContent.slice(LINE.length)));
Object.assign(nouns, found);

function lineOf(run) {
  const line = document.createElement('p');
  line.className = 'in-words';
  line.id = `${run.id}-words`;
  run.section.querySelector('.dsky').after(line);
  return line;
}

const said = runs.filter((run) => run.section).map((run) => [run, lineOf(run)]);

function sayPanels() {
  for (const [run, line] of said) {
    const panel = Object.fromEntries(run.text.split(LINE).map((each) => [each.split(' ')[0], each.slice(each.indexOf(' ') + 1)]));
    const text = panelInWords(panel);
    if (line.textContent !== text) line.textContent = text;
  }
}

if (faults.length) {
  find('trouble').textContent += ` The file of nouns, ${faults[0]}.${faults.length > 1 ? ` ${faults.length - 1} more.` : ''}`;
} else {
  new MutationObserver(sayPanels).observe(document.body, { attributes: true, attributeFilter: ['data-cycle'] });
  sayPanels();
}
