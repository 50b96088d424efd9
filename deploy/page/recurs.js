// The days of an event that recurs, by its rule (RRULE of iCalendar): each day, week, month or year, on weekdays or days of a month, until a
// day or so many times.
import { dayBeside } from './texts.js';
import { numberOf } from './series.js';
import { say } from './words.js';

const DAYS = ['MO', 'TU', 'WE', 'TH', 'FR', 'SA', 'SU'], KNOWN = ['FREQ', 'INTERVAL', 'COUNT', 'UNTIL', 'BYDAY', 'BYMONTHDAY', 'BYMONTH', 'WKST'];
export const MOST_TIMES = 1000;

const two = number => String(number).padStart(2, '0');
const lengthOfMonth = (year, month) => new Date(Date.UTC(year, month, 0)).getUTCDate();

function readRule(text) {
  const rule = Object.fromEntries(text.toUpperCase().split(';').filter(part => part).map(part => part.split('=')));
  const strange = Object.keys(rule).find(name => !KNOWN.includes(name));
  if (strange) return { trouble: say('recurs.strange', { part: strange }) };
  if (!['DAILY', 'WEEKLY', 'MONTHLY', 'YEARLY'].includes(rule.FREQ)) return { trouble: say('recurs.freq', { freq: rule.FREQ }) };
  const weekdays = (rule.BYDAY || '').split(',').filter(part => part).map(part => /^([+-]?\d{1,2})?(MO|TU|WE|TH|FR|SA|SU)$/.exec(part));
  const isStrange = weekdays.includes(null) || (rule.FREQ !== 'MONTHLY' && weekdays.some(part => part[1])) || (rule.FREQ === 'YEARLY' && (rule.BYDAY || rule.BYMONTHDAY));
  if (isStrange || !/^[1-9]\d{0,2}$/.test(rule.INTERVAL || '1') || !/^\d{1,6}$/.test(rule.COUNT || '1')) return { trouble: say('recurs.unreadable') };
  return { rule: { freq: rule.FREQ, every: Number(rule.INTERVAL || 1), count: rule.COUNT ? Number(rule.COUNT) : Infinity,
    until: rule.UNTIL ? rule.UNTIL.slice(0, 4) + '-' + rule.UNTIL.slice(4, 6) + '-' + rule.UNTIL.slice(6, 8) : '', monday: DAYS.indexOf(rule.WKST || 'MO') + 1,
    weekdays: weekdays.map(part => ({ turn: Number(part[1] || 0), number: DAYS.indexOf(part[2]) + 1 })),
    monthDays: (rule.BYMONTHDAY || '').split(',').filter(part => part).map(Number), months: (rule.BYMONTH || '').split(',').filter(part => part).map(Number) } };
}

const ofMonth = (year, month) => Array.from({ length: lengthOfMonth(year, month) }, (_, place) => year + '-' + two(month) + '-' + two(place + 1));

/** Whether a day is on one of these weekdays: each of them in its month, or, with a turn, the so-manieth one, counted from the end if it is below 0. */
function isOnWeekday(day, weekdays) {
  const date = Number(day.slice(8)), last = lengthOfMonth(Number(day.slice(0, 4)), Number(day.slice(5, 7)));
  return weekdays.some(({ turn, number }) => numberOf(day) === number &&
    (turn === 0 || turn === Math.ceil(date / 7) || turn === -Math.ceil((last - date + 1) / 7)));
}

/** The days of the so-manieth period behind that of the first day: of a day, a week, a month or a year. */
function daysOfPeriod(first, rule, turn) {
  const step = turn * rule.every, [year, month] = [Number(first.slice(0, 4)), Number(first.slice(5, 7))];
  if (rule.freq === 'DAILY') return [dayBeside(first, step)].filter(day => !rule.weekdays.length || isOnWeekday(day, rule.weekdays));
  if (rule.freq === 'WEEKLY') {
    const begin = dayBeside(first, 7 * step - (numberOf(first) - rule.monday + 7) % 7), days = [0, 1, 2, 3, 4, 5, 6].map(each => dayBeside(begin, each));
    return days.filter(day => rule.weekdays.length ? isOnWeekday(day, rule.weekdays) : numberOf(day) === numberOf(first));
  }
  const months = rule.freq === 'MONTHLY' ? month - 1 + step : 12 * step + month - 1, days = ofMonth(year + Math.floor(months / 12), months % 12 + 1);
  if (rule.weekdays.length) return days.filter(day => isOnWeekday(day, rule.weekdays));
  const dates = rule.monthDays.length ? rule.monthDays : [Number(first.slice(8))];
  return days.filter((day, place) => dates.includes(place + 1) || dates.includes(place - days.length));
}

/** The days on which it is, the first one among them; without an end of its own those up to `horizon`. Or what is wrong with the rule. */
export function daysOfRule(text, first, horizon) {
  const { rule, trouble } = readRule(text);
  if (trouble) return { days: [], trouble };
  const isEndless = !rule.until && rule.count === Infinity, last = isEndless ? horizon : rule.until || '2099-12-31', days = [];
  for (let turn = 0, counted = 0; turn < 20000; turn += 1) {
    const period = daysOfPeriod(first, rule, turn);
    for (const day of period.filter(each => each >= first && (!rule.months.length || rule.months.includes(Number(each.slice(5, 7)))))) {
      counted += 1;
      if (day > last || counted > rule.count) return { days, isEndless, trouble: '' };
      days.push(day);
      if (days.length > MOST_TIMES) return { days: [], trouble: say('recurs.often', { most: MOST_TIMES }) };
    }
    if (dayBeside(first, turn * rule.every * { DAILY: 1, WEEKLY: 7, MONTHLY: 28, YEARLY: 365 }[rule.freq]) > last) break;
    if (dayBeside(first, turn * rule.every) >= '2099-12-31') break;
  }
  return { days, isEndless, trouble: '' };
}
