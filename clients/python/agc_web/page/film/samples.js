// The table that `agc-study sample` writes: a heading, and a row for each state.
const NUMBER = /^-?[0-9]+(\.[0-9]+)?$/;
const CODE = /^0[0-9]/; // octal, as alarm codes are written

// Reads a table: its columns with their fields, the cycles of its rows, the first fault and how many more rows have one.
function readSamples(text) {
  const [heading, ...rows] = text.replaceAll('\r', '').replace(/\n$/, '').split(LINE);
  const names = heading.split(',');
  const table = { columns: names.slice(2).map((name) => ({ name, fields: [], amounts: null })), cycles: [], fault: '', more: 0 };
  if (names[0] !== 'cycle' || names[1] !== 'seconds' || names.length < 3 || names.includes('')) {
    return { ...table, columns: [], fault: 'line 1: the heading of a table is cycle,seconds,NAME,..' };
  }
  rows.forEach((row, i) => {
    const fields = row.split(',');
    const fault = faultOfRow(names, fields, table.cycles.at(-1) ?? 0);
    if (!fault) takeRow(table, fields);
    else if (table.fault) table.more += 1;
    else table.fault = `line ${i + 2}: ${fault}`;
  });
  return table;
}

// Returns what is wrong with a row, or nothing.
function faultOfRow(names, fields, before) {
  if (fields.length !== names.length) return `fields: ${fields.length}; the heading has ${names.length}`;
  if (!/^[0-9]{1,15}$/.test(fields[0])) return 'the cycle is no number';
  if (Number(fields[0]) < before) return 'the cycle is below that of the row before';
  const wrong = fields.findIndex((field) => field !== '' && !NUMBER.test(field));
  return wrong < 0 ? '' : `${names[wrong]} is no number`;
}

function takeRow(table, fields) {
  table.cycles.push(Number(fields[0]));
  table.columns.forEach((column, i) => column.fields.push(fields[i + 2]));
}

// Returns whether a column has numbers, not codes in octal.
const hasNumbers = ({ fields }) => fields.some(Boolean) && !fields.some((field) => CODE.test(field));

// Returns the numbers of a column; an empty field is none.
function amountsOf(column) {
  const isCode = column.fields.some((field) => CODE.test(field));
  column.amounts ??= Float64Array.from(column.fields, (field) => (field === '' ? NaN : isCode ? parseInt(field, 8) : Number(field)));
  return column.amounts;
}
