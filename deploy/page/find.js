// A free room: each room that has what is needed with the stretches of a day, or of several, that are free for long enough.
import { byId, dayBeside, el, buttonOf, freeOf, hoursText, LAST, minuteOf, renew, dateText, dayText } from './texts.js';
import { at, labelOf, now, office, page, sheetOf } from './office.js';
import { hasWords, roomsThatFit, seatsOf } from './needs.js';
import { takeOffer } from './wish.js';
import { capital, say } from './words.js';

/** The days that are looked at, from the one that the address names on. */
function daysFound() {
  const count = Number(byId('find-days').value) || 1;
  return Array.from({ length: count }, (_, step) => dayBeside(at.day, step)).filter((day, place) => place === 0 || dayBeside(at.day, place - 1) < LAST);
}

/** The sheets that this needs. */
export const foundColumns = () => daysFound().flatMap(day => roomsThatFit().map(room => ({ room: room.name, day })));

/** What is asked: a length and two times, or null where the fields don't say. */
function asked() {
  const length = Number(byId('find-length').value), from = byId('find-from').value, to = byId('find-to').value;
  return Number.isInteger(length) && length > 0 && from !== '' && to !== '' ? { length, from: minuteOf(from), to: minuteOf(to) } : null;
}

function freeFor(sheet, { length, from, to }) {
  return freeOf(sheet.rows, from, to).filter(each => each.stop - each.start >= length);
}

export function showFound() {
  const wanted = asked(), rooms = roomsThatFit(), days = daysFound();
  byId('any').hidden = !wanted;
  if (!wanted) return renew(byId('found'), el('li', { className: 'error' }, say('find.ask')));
  if (!rooms.length) return renew(byId('found'), el('li', { className: 'error' }, say('find.none')));
  renew(byId('found'), ...days.flatMap(day => [days.length > 1 ? el('li', { className: 'day' }, capital(dayText(day))) : '',
    ...rooms.map(room => foundItem(room, day, wanted))].filter(each => each)));
}

function foundItem(room, day, wanted) {
  const { name } = room, sheet = sheetOf(name, day), has = hasWords(room);
  const head = [el('b', {}, labelOf(name)), has ? el('span', { className: 'hint' }, ' ' + has) : ''];
  if (!sheet || !sheet.rows) return el('li', {}, ...head, ' ', sheet ? say('all.unknownRoom') : say('all.notRead'));
  const free = freeFor(sheet, wanted);
  return el('li', {}, ...head, el('span', { className: 'buttons' }, ...free.map(each => foundButton(name, day, each, wanted.length))),
    free.length ? null : el('span', { className: 'hint' }, say('find.notFree')));
}

function foundButton(room, day, free, length) {
  const take = async () => {
    if (!await takeOffer(room, day, free.start)) return;
    byId('length').value = length;
    page.show();
  };
  const hours = hoursText(free.start, free.stop);
  return buttonOf(hours, take, { 'aria-label': say('find.take', { room: labelOf(room), day: dateText(day), hours }) });
}

/** Where a meeting finds room, the earliest first, and of rooms that are free at once the one with fewest seats; nothing that is past. */
export function firstFree() {
  const wanted = asked(), clock = now(), places = [];
  if (!wanted) return [];
  for (const { room, day } of foundColumns()) {
    const sheet = sheetOf(room, day), from = day === clock.day ? Math.max(wanted.from, clock.minute) : wanted.from;
    const [free] = day < clock.day || !sheet || !sheet.rows ? [] : freeFor(sheet, { ...wanted, from });
    if (free) places.push({ room, day, start: free.start, length: wanted.length });
  }
  const seats = ({ room }) => seatsOf(office.rooms.find(each => each.name === room)) || Infinity;
  return places.sort((one, other) => one.day < other.day ? -1 : one.day > other.day ? 1 : one.start - other.start || seats(one) - seats(other) || 0);
}
