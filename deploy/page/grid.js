// The sheets as columns to scale: the day of all rooms, the week of one, or, on a narrow screen, the day of one. A free quarter
// hour and a booking are buttons; the wish and its alternatives are drawn over them with their whole length.
import { byId, dayBeside, el, clashesOf, freeOf, hoursText, MIDNIGHT, timeOf, weekday, weekOf, dateText, dayText } from './texts.js';
import { at, labelOf, now, office, sheetOf } from './office.js';
import { choices, chooseSlot } from './wish.js';
import { openBox } from './box.js';
import { stateOf } from './states.js';
import { capital, say } from './words.js';

const QUARTER = 15, HOUR = 60, FEW = 2;
const narrow = matchMedia('(max-width: 600px)');
let cursor = '';        // the key of the button that Tab reaches
let scrolledFor = '';   // what was scrolled to its first hour already
let drawn = '';         // what the grid shows

/** The days of the week that is shown: a whole week, or, on a narrow screen, which has room for few of them, from the chosen day on. */
export function weekShown() {
  return narrow.matches ? [...new Set([0, 1, 2, 3, 4, 5, 6].map(step => dayBeside(at.day, step)))] : weekOf(at.day);
}

/** What is shown beside one another: each column is a room on a day. */
export function columns() {
  if (at.view === 'week') return weekShown().map(day => ({ room: at.room, day, label: dayText(day), lines: [capital(weekday(day)), dateText(day)] }));
  const names = narrow.matches && office.rooms.length > FEW ? [at.room] : office.rooms.map(room => room.name);
  return names.map(room => ({ room, day: at.day, label: labelOf(room), lines: [labelOf(room)] }));
}

/** From when to when the columns go: the hours of the office, longer where a booking or a choice is outside them. */
function hoursOf(shown) {
  const rows = shown.flatMap(column => (sheetOf(column.room, column.day) || {}).rows || []);
  const own = choices().filter(choice => shown.some(column => isOf(choice, column)));
  const from = Math.min(office.from, ...rows.map(row => row.start), ...own.map(choice => choice.from));
  const to = Math.max(office.to, ...rows.map(row => row.stop), ...own.map(choice => choice.to));
  return [Math.floor(from / HOUR) * HOUR, Math.ceil(to / HOUR) * HOUR];
}

const isOf = (choice, column) => choice.room === column.room && choice.day === column.day;

/** Something that stands in a column from one minute to another. */
function placed(node, start, stop) {
  node.style.setProperty('--start', start);
  node.style.setProperty('--stop', stop);
  return node;
}

function cellOf(kind, column, start, stop, properties, ...children) {
  const cell = placed(el('button', { type: 'button', className: kind, tabIndex: -1, ...properties }, ...children), start, stop);
  Object.assign(cell.dataset, { room: column.room, day: column.day, start, stop, key: [kind.split(' ')[0], column.room, column.day, start].join(' ') });
  return cell;
}

function bookingOf(column, row) {
  const isWished = choices().some(choice => isOf(choice, column) && clashesOf([row], choice.from, choice.to).length > 0);
  const outcome = { ...row, state: 'booked', day: column.day }, [word, kind] = stateOf(outcome), hours = hoursText(row.start, row.stop);
  const cell = cellOf('booking ' + kind + (row.stop - row.start < 30 ? ' short' : '') + (isWished ? ' wished' : ''), column, row.start, row.stop,
    { 'aria-label': say('grid.booking', { column: column.label, hours, title: row.title, state: word }), 'aria-haspopup': 'dialog' },
    el('span', { className: 'words' }, el('b', {}, row.title), ' ', el('span', {}, kind === 'sure' ? hours : say('grid.notFinal', { hours }))));
  cell.addEventListener('click', () => openBox(column.room, column.day, row));
  return cell;
}

function slotOf(column, start, stop) {
  const own = choices().find(choice => isOf(choice, column) && choice.from === start), number = own && own.number;
  const key = !own ? 'grid.free' : number ? 'grid.yourAlternative' : 'grid.yourWish';
  const cell = cellOf('slot' + (own ? ' chosen' : ''), column, start, stop,
    { 'aria-label': say(key, { column: column.label, time: timeOf(start), number }), 'aria-pressed': Boolean(own) }, timeOf(start));
  cell.addEventListener('click', () => { cursor = cell.dataset.key; chooseSlot(column.room, column.day, start); });
  return cell;
}

/** The free hours in pieces that end at whole quarters. */
function slotsOf(column, rows, from, to) {
  return freeOf(rows, from, to).flatMap(free => {
    const slots = [];
    for (let start = free.start; start < free.stop; start = (Math.floor(start / QUARTER) + 1) * QUARTER) {
      slots.push(slotOf(column, start, Math.min((Math.floor(start / QUARTER) + 1) * QUARTER, free.stop)));
    }
    return slots;
  });
}

/** A choice with its whole length, and in red what of it is taken: beside the words of the bookings that it overlaps. */
function drawnOf(choice, rows) {
  const clashes = clashesOf(rows, choice.from, choice.to), { number } = choice, hours = hoursText(choice.from, choice.to);
  const words = clashes.length ? say(number ? 'grid.alternative' : 'grid.wish', { number }) : say(number ? 'grid.alternativeAt' : 'grid.wishAt', { number, hours });
  return [placed(el('div', { className: 'choice' + (clashes.length ? ' clashing' : '') }, el('span', { className: 'words' }, words)),
    choice.from, choice.to), ...clashes.map(row =>
    placed(el('div', { className: 'clash' }), Math.max(row.start, choice.from), Math.min(row.stop, choice.to)))];
}

function bodyOf(column, from, to) {
  const sheet = sheetOf(column.room, column.day);
  const body = el('div', { className: 'body' });
  if (!sheet || !sheet.rows) {
    body.append(el('p', { className: 'unknown' }, sheet ? say('all.unknownRoom') : say('all.notRead')));
    return body;
  }
  const cells = [...sheet.rows.map(row => bookingOf(column, row)), ...slotsOf(column, sheet.rows, from, to)];
  cells.sort((one, other) => one.dataset.start - other.dataset.start);
  const own = choices().filter(choice => isOf(choice, column)).flatMap(choice => drawnOf(choice, sheet.rows));
  body.append(...cells, ...own);
  return body;
}

function columnOf(column, place, from, to) {
  const day = now().day === column.day ? ' today' : '', id = 'column-' + place;
  const head = el('h3', { id, className: 'head' + day }, ...column.lines.map(line => el('span', {}, line + ' ')));
  return el('section', { className: 'column' + day, role: 'group', 'aria-labelledby': id }, head, bodyOf(column, from, to));
}

function timesOf(from, to) {
  const times = el('div', { className: 'body' });
  for (let hour = from; hour < to; hour += HOUR) times.append(placed(el('span', { className: 'time' }, timeOf(hour)), hour, hour + HOUR));
  return el('div', { className: 'times', 'aria-hidden': 'true' }, el('div', { className: 'head' }), times);
}

/** Draws the grid where it would look otherwise than it does, and the line for now. */
export function showGrid() {
  const shown = columns(), [from, to] = hoursOf(shown);
  const what = JSON.stringify([shown, shown.map(column => sheetOf(column.room, column.day)?.rows ?? !sheetOf(column.room, column.day)),
    choices(), byId('room').value, now().day, from, to]);
  if (what !== drawn) draw(shown, from, to);
  drawn = what;
  placeNow(shown, from, to);
  scrollOnce(shown, from);
}

function placeNow(shown, from, to) {
  const { day, minute } = now();
  for (const line of byId('grid').querySelectorAll('.now')) line.remove();
  if (minute < from || to <= minute) return;
  for (const body of byId('grid').querySelectorAll('.column.today .body')) {
    body.append(placed(el('div', { className: 'now', title: say('grid.now', { day: dateText(day), time: timeOf(minute) }) }), minute, minute));
  }
}

function draw(shown, from, to) {
  const grid = byId('grid');
  const held = grid.contains(document.activeElement) ? document.activeElement.dataset.key : '';
  grid.style.setProperty('--from', from);
  grid.style.setProperty('--to', to);
  grid.style.setProperty('--columns', shown.length);
  grid.classList.toggle('week', at.view === 'week');
  grid.replaceChildren(timesOf(from, to), ...shown.map((column, place) => columnOf(column, place, from, to)));
  fitHeads();
  placeCursor(held);
}

/** All heads are as high as the longest name needs. */
function fitHeads() {
  const grid = byId('grid');
  grid.style.removeProperty('--head');
  const heights = [...grid.querySelectorAll('.column .head')].map(head => head.scrollHeight + head.offsetHeight - head.clientHeight);
  if (heights.length) grid.style.setProperty('--head', Math.max(...heights) + 'px');
}

/** The first time that a day, a week or a room is shown, the hour of the first booking is at the top; where the day is today and the office is open, the hour before now. */
function scrollOnce(shown, from) {
  const what = shown.map(column => column.room + column.day).join(), clock = now();
  if (scrolledFor === what || shown.some(column => !sheetOf(column.room, column.day))) return;
  scrolledFor = what;
  const starts = shown.flatMap(column => (sheetOf(column.room, column.day).rows || []).map(row => row.start));
  const isNow = at.view === 'day' && at.day === clock.day && clock.minute < office.to;
  const first = isNow ? clock.minute : Math.min(MIDNIGHT, ...starts);
  const body = byId('grid').querySelector('.times .body'), hour = body.offsetHeight / (body.children.length || 1);
  byId('scroll').scrollTop = first === MIDNIGHT ? 0 : Math.max(0, Math.floor(first / HOUR) - 1 - from / HOUR) * hour;
}

// ---- keys

const cells = () => [...byId('grid').querySelectorAll('[data-key]')];

/** One button of the grid can be reached by Tab: the one that was reached last, or what stands there now, else the first. */
function placeCursor(held) {
  const all = cells(), key = held || cursor, [, room, day, start] = key.split(' ');
  const isThere = each => each.dataset.room === room && each.dataset.day === day && Number(each.dataset.stop) > start;
  const cell = all.find(each => each.dataset.key === key) || all.find(isThere) || all[0];
  if (!cell) return;
  cell.tabIndex = 0;
  if (held) cell.focus({ preventScroll: true });
}

/** Back to the grid, from a box over it. */
export function focusGrid() { if (cursor) placeCursor(cursor); }

/** Where a key leads from a cell: up and down in its column, to the side at the same time of day, to the ends, by two hours. */
function nextOf(cell, key) {
  const groups = [...byId('grid').querySelectorAll('.column')].map(group => [...group.querySelectorAll('[data-key]')]);
  const place = groups.findIndex(group => group.includes(cell)), own = groups[place], index = own.indexOf(cell);
  const atMinute = (group, minute) => group && (group.find(each => Number(each.dataset.stop) > minute) || group[group.length - 1]);
  const start = Number(cell.dataset.start);
  const beside = step => groups.slice(step > 0 ? place + 1 : 0, step > 0 ? undefined : place).filter(group => group.length).at(step > 0 ? 0 : -1);
  return { ArrowUp: () => own[index - 1], ArrowDown: () => own[index + 1], Home: () => own[0], End: () => own[own.length - 1],
    ArrowLeft: () => atMinute(beside(-1), start), ArrowRight: () => atMinute(beside(1), start),
    PageUp: () => atMinute(own, start - 2 * HOUR), PageDown: () => atMinute(own, start + 2 * HOUR) }[key];
}

export function moveCursor(event) {
  const cell = event.target.closest('[data-key]'), next = cell && nextOf(cell, event.key);
  if (!next) return;
  event.preventDefault();
  const to = next();
  if (to) to.focus();
}

export function keepCursor(event) {
  const cell = event.target.closest('[data-key]');
  if (!cell) return;
  for (const each of cells()) each.tabIndex = each === cell ? 0 : -1;
  cursor = cell.dataset.key;
}

export function watchWidth(act) {
  narrow.addEventListener('change', act);
  window.addEventListener('resize', fitHeads);
}
