// The days of a series: each Tuesday until 30 June, each weekday of next week, the first Monday of each month, or those of a list.
import { dayBeside, isDay, LAST } from './texts.js';
import { dayWritten } from './written.js';
import { say } from './words.js';

export const MOST_DAYS = 500;

/** The weekday of a day, from 1 for Monday to 7. */
export const numberOf = day => (new Date(day + 'T12:00:00Z').getUTCDay() + 6) % 7 + 1;

/** How often a weekday has come in its month up to this day: 3 for a third Tuesday. */
const turnOf = day => Math.ceil(Number(day.slice(8)) / 7);

/** The days from one to another on these weekdays: those of each so-manieth week, or, with `month`, of the same turn in each month. */
export function daysOfSeries({ from, until, weekdays, every }) {
  if (!isDay(from) || !isDay(until)) return { days: [], trouble: say('series.noSpan') };
  if (until < from) return { days: [], trouble: say('series.backwards') };
  if (!weekdays.length) return { days: [], trouble: say('series.noWeekday') };
  const days = [], turn = turnOf(from);
  for (let day = from, week = 0; day <= until; day = dayBeside(day, 1)) {
    if (day !== from && numberOf(day) === 1) week += 1;
    const isTurn = every === 'month' ? turnOf(day) === turn : week % Number(every) === 0;
    if (isTurn && weekdays.includes(numberOf(day))) days.push(day);
    if (days.length > MOST_DAYS) return { days: [], trouble: say('series.many', { most: MOST_DAYS }) };
    if (day === LAST) break;
  }
  return { days, trouble: days.length ? '' : say('series.none') };
}

/** The days of a list, as they are written: one a line, or with commas, semicolons or spaces between them. */
export function daysOfList(text) {
  const words = text.split(/[\s,;]+/).filter(word => word), days = [...new Set(words.map(word => dayWritten(word) || word))];
  if (days.length > MOST_DAYS) return { days: [], trouble: say('series.many', { most: MOST_DAYS }) };
  return { days, trouble: days.length ? '' : say('series.noDay') };
}
