// The lines of a CSV file as wishes. Its first line names the columns; commas, semicolons or tabs stand between the cells.
import { dayWritten, hoursWritten } from './written.js';
import { say } from './words.js';

/** What a column may be called. */
const NAMES = {
  room: ['room', 'location', 'raum', 'ort', 'salle', 'lieu'],
  day: ['day', 'date', 'start date', 'tag', 'datum', 'jour'],
  start: ['start', 'start time', 'from', 'begin', 'beginn', 'von', 'début', 'de'],
  stop: ['stop', 'end', 'end time', 'to', 'ende', 'bis', 'fin', 'à'],
  length: ['length', 'minutes', 'duration', 'dauer', 'minuten', 'durée'],
  title: ['title', 'subject', 'summary', 'titel', 'betreff', 'titre', 'objet'],
  id: ['id', 'uid', 'key'],
  endDay: ['end date', 'enddatum'],
};

const separatorOf = head => [',', ';', '\t'].reduce((best, each) => head.split(each).length > head.split(best).length ? each : best);

/** The rows of cells, each with the number of its first line. A cell in quotes may have anything, also lines; a quote within it is doubled. */
export function rowsOf(text) {
  const separator = separatorOf(text.split(/\r?\n|\r/, 1)[0]), rows = [];
  let cells = [], cell = '', isQuoted = false, line = 1, first = 1;
  const endRow = () => {
    if (cells.length || cell.trim()) rows.push({ line: first, cells: [...cells, cell.trim()], isOpen: isQuoted });
    [cells, cell, first] = [[], '', line];
  };
  for (let at = 0; at < text.length; at += 1) {
    const letter = text[at], isEnd = letter === '\n' || (letter === '\r' && text[at + 1] !== '\n');
    if (isEnd) line += 1;
    if (isQuoted) {
      if (letter !== '"') cell += letter;
      else if (text[at + 1] === '"') { cell += '"'; at += 1; } else isQuoted = false;
    } else if (letter === '"' && !cell.trim()) { cell = ''; isQuoted = true; }
    else if (letter === separator) { cells.push(cell.trim()); cell = ''; }
    else if (isEnd) endRow();
    else cell += letter;
  }
  endRow();
  return rows;
}

/** Which column is which, by the names in the first line. */
function columnsOf(cells) {
  const named = cells.map(cell => cell.toLowerCase());
  return { of: cells.length, ...Object.fromEntries(Object.entries(NAMES).map(([name, words]) => [name, named.findIndex(cell => words.includes(cell))])) };
}

/** The wishes of a CSV file, each with the number of its line, and with what is wrong with it; or what is wrong with all of it. */
export function wishesOfCsv(text) {
  const [head, ...rows] = rowsOf(text), columns = head ? columnsOf(head.cells) : {};
  if (!head || ['day', 'start', 'title'].some(name => columns[name] < 0) || (columns.stop < 0 && columns.length < 0)) {
    return { wishes: [], trouble: say('readcsv.head') };
  }
  return { wishes: rows.map(row => wishOf(row, columns)), trouble: '' };
}

function wishOf({ line, cells, isOpen }, columns) {
  while (cells.length > columns.of && !cells.at(-1)) cells.pop();
  const cell = name => columns[name] < 0 ? '' : cells[columns[name]] || '';
  const wish = { line, place: cell('room'), day: dayWritten(cell('day')), title: cell('title').replace(/\s+/g, ' '), key: cell('id'), start: '', length: 0 };
  const hours = hoursWritten(cell('start'), cell('stop'), cell('length')), endDay = cell('endDay');
  if (isOpen) return { ...wish, trouble: say('readcsv.open') };
  if (cells.length > columns.of) return { ...wish, trouble: say('readcsv.cells', { cells: cells.length, columns: columns.of }) };
  if (!wish.day) return { ...wish, trouble: say('readcsv.noDay', { text: cell('day') }) };
  if (endDay && dayWritten(endDay) !== wish.day) return { ...wish, trouble: say('readcsv.otherDay') };
  return { ...wish, ...hours };
}
