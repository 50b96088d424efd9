// What the desk and the door share and what needs no reply: elements, days, times, titles, and the lines of a sheet.
// A time of day is a number of minutes from midnight; a day is a text as 1995-12-18.
import { firstWeekday, language, locale } from './language.js';
import { say } from './words.js';

export const FIRST = '1990-01-01', LAST = '2099-12-31', MIDNIGHT = 1440;

export const byId = id => document.getElementById(id);

/** An element with these properties and children; a string becomes text, never HTML. */
export function el(tag, properties, ...children) {
  const node = document.createElement(tag);
  for (const [name, value] of Object.entries(properties || {})) {
    if (name in node && !name.includes('-')) node[name] = value; else node.setAttribute(name, value);
  }
  node.append(...children.filter(child => child !== null));
  return node;
}

export function buttonOf(words, act, properties) {
  const button = el('button', { type: 'button', ...properties }, words);
  button.addEventListener('click', act);
  return button;
}

/** Puts words into places; what stands there already is left, so that no screen reader says it again. */
export function put(places) {
  for (const [id, words] of Object.entries(places)) {
    if (byId(id).textContent !== words) byId(id).textContent = words;
  }
}

/** Puts children into a place, unless what stands there looks the same. */
export function renew(node, ...children) {
  const held = node.childNodes, isSame = held.length === children.length && children.every((child, place) => child.isEqualNode(held[place]));
  if (!isSame) node.replaceChildren(...children);
}

// ---- days and times

const two = number => String(number).padStart(2, '0');
export const minuteOf = text => 60 * Number(text.slice(0, 2)) + Number(text.slice(3, 5));
export const timeOf = minute => two(Math.floor(minute / 60)) + ':' + two(minute % 60);
export const hoursText = (start, stop) => timeOf(start) + '–' + timeOf(stop);
export const noonOf = day => new Date(day + 'T12:00:00Z');
export const weekday = (day, length) => noonOf(day).toLocaleDateString(locale, { weekday: length || 'long', timeZone: 'UTC' });

/** A day as it is written: 1995-12-18 in English, whose readers don't agree on another way, else by the language, as 18.12.1995. */
export const dateText = day => language === 'en' || !isDay(day) ? day
  : noonOf(day).toLocaleDateString(locale, { year: 'numeric', month: '2-digit', day: '2-digit', timeZone: 'UTC' });

/** With its day of the week, as Monday 1995-12-18. */
export const dayText = (day, length) => say('texts.day', { weekday: weekday(day, length), date: dateText(day) });

export function isDay(text) {
  const date = noonOf(text);
  return /^\d{4}-\d\d-\d\d$/.test(text) && text >= FIRST && text <= LAST && !isNaN(date) && date.toISOString().startsWith(text);
}

export function dayBeside(day, step) {
  const date = noonOf(day);
  date.setUTCDate(date.getUTCDate() + step);
  const beside = date.toISOString().slice(0, 10);
  return beside < FIRST ? FIRST : beside > LAST ? LAST : beside;
}

/** How many days of its week are before this one; which day a week begins with goes by the language and its region. */
export const placeInWeek = day => (noonOf(day).getUTCDay() + 7 - firstWeekday) % 7;

/** The days of the week of this day. */
export function weekOf(day) {
  return [...new Set([0, 1, 2, 3, 4, 5, 6].map(step => dayBeside(day, step - placeInWeek(day))))];
}

/** The day and the minute of this moment by the clocks of a zone, and its time in words; without a zone by this machine's clock. */
export function clockOf(date, zone) {
  const words = new Intl.DateTimeFormat('en-CA', { timeZone: zone || undefined, hourCycle: 'h23', year: 'numeric', month: '2-digit',
    day: '2-digit', hour: '2-digit', minute: '2-digit', second: '2-digit' }).formatToParts(date);
  const part = type => words.find(each => each.type === type).value;
  const time = part('hour') + ':' + part('minute');
  return { day: part('year') + '-' + part('month') + '-' + part('day'), minute: minuteOf(time), time: time + ':' + part('second') };
}

// ---- sheets

/** The bookings that the lines of a sheet show. */
export function readSheet(text) {
  const rows = [];
  for (const line of text.split('\n').slice(1)) {
    const found = /^(\d\d:\d\d)-(\d\d:\d\d) ([CT]) (\d+-\d+) (.*)$/.exec(line);
    if (found) rows.push({ start: minuteOf(found[1]), stop: minuteOf(found[2]), mark: found[3], id: found[4], title: found[5] });
  }
  return rows;
}

/** What an error log says: the marks of the requests without a room by their ids, and the cancels that found no booking by what they cancel. */
export function readErrors(lines) {
  const marks = new Map(), withdrawn = new Map();
  for (const line of lines) {
    const [, mark, id, target] = /^([CT]) (\d+-\d+) (?:cancel (\d+-\d+)$)?/.exec(line) || [];
    if (target) withdrawn.set(target, id); else if (id) marks.set(id, mark);
  }
  return { marks, withdrawn };
}

/** The bookings that share a minute with these hours. */
export const clashesOf = (rows, start, stop) => rows.filter(row => row.start < stop && start < row.stop);

/** The hours between `from` and `to` that no booking has. */
export function freeOf(rows, from, to) {
  const free = [];
  let start = from;
  for (const row of [...rows, { start: to, stop: to }]) {
    const stop = Math.min(row.start, to);
    if (start < stop) free.push({ start, stop });
    start = Math.max(start, row.stop);
  }
  return free;
}

/** Where a meeting of this length finds room between `from` and `to`: in each free stretch the start that is nearest to the wish. */
export function nearestOf(rows, length, wished, from, to) {
  const starts = freeOf(rows, from, to).filter(free => free.stop - free.start >= length)
    .map(free => Math.max(free.start, Math.min(wished, free.stop - length)));
  return starts.sort((one, other) => Math.abs(one - wished) - Math.abs(other - wished));
}

// ---- titles

const PLAIN = { ä: 'ae', ö: 'oe', ü: 'ue', Ä: 'Ae', Ö: 'Oe', Ü: 'Ue', ß: 'ss', ẞ: 'SS', æ: 'ae', Æ: 'Ae', œ: 'oe', Œ: 'Oe', ø: 'oe', Ø: 'Oe',
  ł: 'l', Ł: 'L', đ: 'd', Đ: 'D', ð: 'd', Ð: 'D', þ: 'th', Þ: 'Th', ı: 'i', '‘': '\'', '’': '\'', '‚': ',', '“': '"', '”': '"', '„': '"',
  '«': '"', '»': '"', '–': '-', '—': '-', '…': '...', '€': 'EUR', '£': 'GBP', '×': 'x', '·': '-', '•': '-' };

export const isPlain = title => /^[ -~]*$/.test(title);

/** The title in the letters that can be kept; a letter of another script is left out. */
export function plainOf(title) {
  const spelt = [...title.normalize('NFC')].map(letter => PLAIN[letter] || letter).join('');
  return spelt.normalize('NFKD').replace(/\s+/g, ' ').replace(/[^ -~]/g, '').trim();
}
