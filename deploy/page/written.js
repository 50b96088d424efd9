// Days, times and rooms as people and other programs write them. Each gives what is meant, or nothing where that isn't sure.
import { isDay, MIDNIGHT, timeOf } from './texts.js';
import { say } from './words.js';

const two = text => text.padStart(2, '0');

/** 2026-06-30, 20260630 or 30.6.2026. With strokes between them a day can be read in two ways, and is none. */
export function dayWritten(text) {
  const [, year, month, day] = /^(\d{4})-?(\d\d)-?(\d\d)$/.exec(text) || [];
  const [, dayFirst, monthNext, yearLast] = /^(\d{1,2})\. ?(\d{1,2})\. ?(\d{4})$/.exec(text) || [];
  const read = year ? year + '-' + month + '-' + day : yearLast ? yearLast + '-' + two(monthNext) + '-' + two(dayFirst) : '';
  return isDay(read) ? read : '';
}

/** 9:00, 09:00, 09.00 or 09:00:00; as a stop also 24:00. In minutes, or -1. */
export function minuteWritten(text) {
  const [, hour, minute] = /^(\d{1,2})[:.](\d\d)(?::00)?$/.exec(text) || [];
  const read = hour === undefined ? -1 : 60 * Number(hour) + Number(minute);
  return Number(minute) < 60 && read <= MIDNIGHT ? read : -1;
}

/** The hours that are meant by a start and a stop, or a start and a length: the start as it is sent and the minutes, or what is wrong. */
export function hoursWritten(start, stop, length) {
  const from = minuteWritten(start), to = stop ? minuteWritten(stop) : -1;
  if (from < 0 || from === MIDNIGHT) return { trouble: say('written.noTime', { text: start }) };
  if (stop && to < 0) return { trouble: say('written.noTime', { text: stop }) };
  if (!stop && !/^[0-9]{1,4}$/.test(length)) return { trouble: length ? say('written.noLength', { text: length }) : say('written.noEnd') };
  const minutes = stop ? to - from : Number(length);
  if (stop && length && Number(length) !== minutes) return { trouble: say('written.twoLengths') };
  if (minutes < 1) return { trouble: say('all.backwards') };
  if (from + minutes > MIDNIGHT) return { trouble: say('written.midnight') };
  return { start: timeOf(from), length: minutes };
}

/** The room that is meant by its name or its label; nothing where no room, or more than one, has it. */
export function roomWritten(text, rooms) {
  const plain = text.trim().toLowerCase(), named = rooms.filter(room => room.name === plain);
  const found = named.length ? named : rooms.filter(room => (room.label || '').trim().toLowerCase() === plain);
  return found.length === 1 ? found[0].name : '';
}
