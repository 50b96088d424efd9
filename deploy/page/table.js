// A table as CSV, read: each line an object with the names of the head.

/** The cells of each line; a cell in quotes may have commas, quotes and ends of lines. */
function cellsOf(text) {
  const lines = [];
  let line = [];
  for (const [, quoted, plain, end] of text.matchAll(/(?:"((?:[^"]|"")*)"|([^",\r\n]*))(,|\r?\n|$)/g)) {
    line.push(quoted !== undefined ? quoted.replaceAll('""', '"') : plain);
    if (end === ',') continue;
    if (line.length > 1 || line[0] !== '') lines.push(line);
    line = [];
  }
  return lines;
}

/** A sign before what a spreadsheet would take for a formula isn't part of the text. */
const textOf = cell => cell.replace(/^'(?=[=+\-@])/, '');

export function rowsOf(text) {
  const [head, ...lines] = cellsOf(text);
  return lines.map(line => Object.fromEntries((head || []).map((name, place) => [name, textOf(line[place] ?? '')])));
}
