// places for digits, of which the first may be a sign
function places(name, count, kind) {
  const bars = (shapes) => Object.entries(shapes).map(([bar, points]) => `<polygon data-bar='${bar}' points='${points}'/>`).join('');
  const place = (i) => `<svg viewBox='0 0 36 60'>${bars(count === 6 && i === 0 ? SIGN_BARS : SEGMENTS)}</svg>`;
  return `<div class='digits ${kind}' data-name='${name}'>${[...Array(count).keys()].map(place).join('')}</div>`;
}

function keyPad() {
  const key = (name, column, row) => {
    const words = name.replace('KEYREL', 'KEY<br>REL');
    const kind = name.length === 1 ? 'figure' : '';
    return `<span class='${kind}' data-key='${name}' style='grid-area: ${row} / ${column} / span 2'>${words}</span>`;
  };
  return KEYS.flatMap(([row, names], i) => names.split(' ').map((name, j) => key(name, i + 1, row + 2 * j))).join('');
}
