// The month of a room: a day is a button with its bookings, which leads to that day. Arrow keys move from day to day.
import { byId, dayBeside, el, buttonOf, FIRST, LAST, noonOf, put, renew, placeInWeek, timeOf, weekday, weekOf, dayText } from './texts.js';
import { locale } from './language.js';
import { at, labelOf, now, page, sheetOf } from './office.js';
import { capital, say } from './words.js';

const FEW = 3, MOST_DAYS = 31;
let cursor = '';        // the day that Tab reaches
let isStepped = false;  // a key led into another month, where the focus goes

const monthOf = day => day.slice(0, 7);
const nameOf = day => noonOf(day).toLocaleDateString(locale, { month: 'long', year: 'numeric', timeZone: 'UTC' });

function daysOf(day) {
  const first = monthOf(day) + '-01', days = [];
  for (let step = 0; step < MOST_DAYS && monthOf(dayBeside(first, step)) === monthOf(day); step++) days.push(dayBeside(first, step));
  return [...new Set(days)];
}

export const monthColumns = () => daysOf(at.day).map(day => ({ room: at.room, day }));
export const monthTitle = () => say('month.title', { room: labelOf(at.room), month: nameOf(at.day) });

/** The same day of the month beside, or its last one. */
export function monthBeside(day, sign) {
  const days = daysOf(sign > 0 ? dayBeside(daysOf(day).at(-1), 1) : dayBeside(daysOf(day)[0], -1));
  const same = days.find(each => each.slice(8) === day.slice(8)) || days.at(-1);
  return monthOf(same) === monthOf(day) ? (sign > 0 ? LAST : FIRST) : same;
}

function cellOf(day) {
  const sheet = sheetOf(at.room, day), rows = sheet && sheet.rows || [], number = String(Number(day.slice(8)));
  const words = !sheet ? say('month.notRead') : !sheet.rows ? say('month.notKnown') : say('month.bookings', { count: rows.length });
  const titles = rows.slice(0, FEW).map(row => el('span', { className: 'meeting' + (row.mark === 'C' ? '' : ' waiting') }, timeOf(row.start) + ' ' + row.title));
  const more = rows.length > FEW ? [el('span', { className: 'hint' }, say('month.more', { count: rows.length - FEW }))] : [];
  const button = buttonOf('', () => page.goTo({ day, view: 'day' }), { className: 'date' + (day === now().day ? ' today' : '') + (rows.length ? ' used' : ''), tabIndex: -1,
    'aria-label': [dayText(day), words, ...rows.map(row => timeOf(row.start) + ' ' + row.title)].join(', ') });
  button.append(el('b', {}, number), ' ', el('span', { className: 'count' }, sheet ? rows.length ? String(rows.length) : '' : '…'), ...titles, ...more);
  button.dataset.day = day;
  return button;
}

export function showMonth() {
  const place = byId('month'), held = place.contains(document.activeElement) && document.activeElement.dataset.day, days = daysOf(at.day);
  const before = placeInWeek(days[0]), cells = [...Array(before).fill(null), ...days];
  const rows = Array.from({ length: Math.ceil(cells.length / 7) }, (_, line) => Array.from({ length: 7 }, (__, column) => cells[7 * line + column] || null));
  const heads = weekOf('1995-12-18').map(day => el('th', { scope: 'col', abbr: weekday(day) }, capital(weekday(day, 'short'))));
  renew(place, el('table', { 'aria-label': monthTitle() }, el('thead', {}, el('tr', {}, ...heads)),
    el('tbody', {}, ...rows.map(row => el('tr', {}, ...row.map(day => el('td', {}, day ? cellOf(day) : '')))))));
  put({ 'month-hint': say('month.hint') });
  placeCursor(held || (isStepped && monthOf(cursor) === monthOf(at.day) ? cursor : ''));
  isStepped = false;
}

const cellsOf = () => [...byId('month').querySelectorAll('[data-day]')];

/** One day can be reached by Tab: the one that was reached last, else the one that the address names. */
function placeCursor(held) {
  const all = cellsOf(), cell = all.find(each => each.dataset.day === (held || cursor)) || all.find(each => each.dataset.day === at.day) || all[0];
  for (const each of all) each.tabIndex = each === cell ? 0 : -1;
  if (held && cell) cell.focus({ preventScroll: true });
}

const STEPS = { ArrowLeft: -1, ArrowRight: 1, ArrowUp: -7, ArrowDown: 7 };

/** A step that leads out of the month shows the month beside. */
export function moveInMonth(event) {
  const cell = event.target.closest('[data-day]');
  if (!cell || !(event.key in STEPS || ['PageUp', 'PageDown', 'Home', 'End'].includes(event.key))) return;
  event.preventDefault();
  const day = cell.dataset.day, week = weekOf(day).filter(each => monthOf(each) === monthOf(day));
  const to = { PageUp: () => monthBeside(day, -1), PageDown: () => monthBeside(day, 1), Home: () => week[0], End: () => week.at(-1) }[event.key];
  cursor = to ? to() : dayBeside(day, STEPS[event.key]);
  isStepped = monthOf(cursor) !== monthOf(at.day);
  if (isStepped) page.goTo({ day: cursor }); else placeCursor(cursor);
}
