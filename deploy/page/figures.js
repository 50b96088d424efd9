// What the rooms were used for, of the office's figures.csv: hours booked of hours open, by room, by day of the week and by month, with what
// found no room and what merges did. The bars are drawn here; nothing comes from anywhere else.
import { byId, el, noonOf, weekday, weekOf } from './texts.js';
import { rowsOf } from './table.js';
import { language, locale } from './language.js';
import { fillWords } from './filling.js';
import { capital, numberText, say } from './words.js';

const COUNTS = ['open', 'booked', 'outside', 'bookings', 'no_room', 'moved', 'lost'];
const HEADS = [say('figures.booked'), say('figures.open'), say('figures.part'), '', say('figures.outside'), say('figures.bookings'), say('figures.noRoom'),
  say('figures.moved'), say('figures.lost')];
const FIRST_HEADS = { room: say('figures.room'), weekday: say('figures.day'), month: say('figures.month') };
const TENTHS = { minimumFractionDigits: 1, maximumFractionDigits: 1 };
/** The days of a week in its order: what each is called, by its name in the file, which is English. */
const WEEKDAYS = new Map(weekOf('1995-12-18').map(day => [noonOf(day).toLocaleDateString('en-GB', { weekday: 'long', timeZone: 'UTC' }), capital(weekday(day))]));
let lines = [];

const hours = minutes => say('figures.hours', { hours: numberText(Math.round(minutes / 6) / 10, TENTHS) });
const distinct = values => [...new Set(values)];

/** A month as it is written: 2027-04 in English, else with its name. */
const monthText = month => language === 'en' ? month
  : capital(noonOf(month + '-15').toLocaleDateString(locale, { month: 'long', year: 'numeric', timeZone: 'UTC' }));

function sumOf(chosen) {
  return Object.fromEntries(COUNTS.map(count => [count, chosen.reduce((sum, line) => sum + (Number(line[count]) || 0), 0)]));
}

/** A bar for a part of 1, which the number beside it says in words. */
function barOf(part) {
  const space = 'http://www.w3.org/2000/svg', bar = document.createElementNS(space, 'svg');
  bar.setAttribute('viewBox', '0 0 100 10');
  bar.setAttribute('preserveAspectRatio', 'none');
  bar.setAttribute('aria-hidden', 'true');
  for (const [kind, width] of [['whole', 100], ['part', 100 * Math.min(1, part)]]) {
    const rectangle = document.createElementNS(space, 'rect');
    for (const [name, value] of Object.entries({ class: kind, width, height: 10 })) rectangle.setAttribute(name, value);
    bar.append(rectangle);
  }
  return bar;
}

function lineOf(head, sum) {
  const part = sum.open ? sum.booked / sum.open : 0, percent = sum.open ? say('figures.percent', { percent: Math.round(100 * part) }) : '–';
  const cells = [hours(sum.booked), hours(sum.open), percent, barOf(part), hours(sum.outside), sum.bookings, sum.no_room, sum.moved, sum.lost];
  return el('tr', {}, el('th', { scope: 'row' }, head), ...cells.map(cell => el('td', {}, typeof cell === 'number' ? numberText(cell) : cell)));
}

/** One table: a line for each value of a column, and what it is called. */
function tableOf(caption, chosen, column, values, nameOf = value => value) {
  const heads = HEADS.map(head => head ? el('th', { scope: 'col' }, head) : el('td', {}));
  const body = values.map(value => lineOf(nameOf(value), sumOf(chosen.filter(line => line[column] === value))));
  const table = el('table', {}, el('caption', {}, caption), el('thead', {}, el('tr', {}, el('th', { scope: 'col' }, FIRST_HEADS[column]), ...heads)),
    el('tbody', {}, ...body, lineOf(say('figures.all'), sumOf(chosen))));
  return el('div', { className: 'wide', tabIndex: 0, role: 'region', 'aria-label': caption }, table);
}

function show() {
  const from = byId('from').value, to = byId('to').value, room = byId('room').value;
  const chosen = lines.filter(line => from <= line.month && line.month <= to && (room === '' || line.room === room));
  const labels = new Map(lines.map(line => [line.room, line.label]));
  byId('tables').replaceChildren(...(chosen.length ? [tableOf(say('figures.byRoom'), chosen, 'room', distinct(chosen.map(line => line.room)), value => labels.get(value)),
    tableOf(say('figures.byWeekday'), chosen, 'weekday', [...WEEKDAYS.keys()], value => WEEKDAYS.get(value)),
    tableOf(say('figures.byMonth'), chosen, 'month', distinct(chosen.map(line => line.month)).sort(), monthText)]
    : [el('p', {}, say('figures.nothing'))]));
}

function fill(id, options, chosen) {
  byId(id).replaceChildren(...options.map(([value, words]) => el('option', { value }, words)));
  byId(id).value = chosen;
  byId(id).addEventListener('change', show);
}

async function start() {
  fillWords();
  const reply = await fetch(new URL('/figures.csv', location.origin), { cache: 'no-store' }).catch(() => null);
  if (!reply || reply.status !== 200) {
    byId('trouble').textContent = say(reply ? 'figures.none' : 'figures.noneOrLost');
    return;
  }
  lines = rowsOf(await reply.text());
  const months = distinct(lines.map(line => line.month)).sort(), rooms = distinct(lines.map(line => line.room));
  fill('from', months.map(month => [month, monthText(month)]), months[0]);
  fill('to', months.map(month => [month, monthText(month)]), months.at(-1));
  fill('room', [['', say('figures.allRooms')], ...rooms.map(room => [room, lines.find(line => line.room === room).label])], '');
  show();
}

start();
