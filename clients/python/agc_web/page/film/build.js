// the DSKY of a run, with its panel and its keys as text below
function build(run) {
  const lamps = LAMPS.map((name, i) => `<li class='${i % 2 ? 'caution' : ''}' data-lamp='${name}'>${name}</li>`).join('');
  const pair = (name) => `<div><span class='name'>${name}</span>${places(name, 2, '')}</div>`;
  const registers = ['R1', 'R2', 'R3'].map((name) => places(name, 6, 'register')).join('');
  const display = `<div class='acty' data-lamp='COMP ACTY'>COMP<br>ACTY</div>${pair('PROG')}${pair('VERB')}${pair('NOUN')}${registers}`;
  const section = document.createElement('section');
  section.className = 'run';
  section.innerHTML = `<h2></h2><div class='dsky' aria-hidden='true'><ul class='lamps'>${lamps}</ul><div class='display'>${display}</div><div class='keys'>${keyPad()}</div></div>`
    + `<div class='copy'><pre id='${run.id}-panel' aria-live='polite' aria-label='The panel'></pre><p id='${run.id}-keys'></p></div>`;
  section.querySelector('h2').textContent = (runs.length === 1 ? '' : run.id === 'left' ? 'Left run: ' : 'Right run: ') + files(run);
  section.querySelector('h2').title = files(run);
  find('runs').append(section);
  run.section = section;
}

// the names of a run's files
function files(run) {
  return `${run.rope}, ${run.script}`;
}

function showTitle() {
  find('title').textContent = `DSKY film, limit ${runs[0].limit}`;
  document.title = `${runs.map(files).join('; ')}; limit ${runs[0].limit}`;
}
